import java.io.IOException;
import java.lang.invoke.MethodHandle;
import java.lang.invoke.MethodHandles;
import java.lang.invoke.MethodHandles.Lookup;
import java.lang.invoke.MethodType;
import java.lang.reflect.Array;
import java.lang.reflect.Modifier;
import java.nio.file.Files;
import java.nio.file.Path;
import java.util.ArrayList;
import java.util.LinkedHashSet;
import java.util.List;
import java.util.Map;
import java.util.Set;
import java.util.TreeMap;

/**
 * Asks this Java virtual machine of each line on access of <code>jcompat check --calls</code> whether a client is refused:
 * <code>java Refused.java OLD NEW REPORT [LIBRARY]..</code>.
 *
 * <p>For each a class of a client is made below the class of the line. It has a method of the line's name and descriptor, package-private, which does nothing. With
 * the old release no interface above the class may have the method, and with the new one a call of one of them on an object of the class, with zeros and nulls,
 * has to end with <code>IllegalAccessError</code>. No constructor runs, but initializers of the library's classes do. The last lines say how many are refused; how
 * many are, but <code>javac</code> compiles no such client against the old release, which lacks a class of the descriptor, or has a public method of this name and
 * these parameters above the client, with another result (uncompiled); and of how many an initializer ends with an error before (hidden). A line says of each that
 * is hidden, or differs, how both calls end.
 */
public final class Refused {
    public static void main(String[] words) throws IOException {
        List<String> libraries = List.of(words).subList(3, words.length);
        References.Release before = new References.Release(words[0], libraries);
        References.Release after = new References.Release(words[1], libraries);
        Map<String, Integer> counts = new TreeMap<>();
        for (String line : Files.readAllLines(Path.of(words[2]))) {
            String[] word = line.split(" ");
            if (word[0].equals("call") && word[3].equals("access")) {
                String with = outcome(before, word[1], word[2]);
                String without = outcome(after, word[1], word[2]);
                String what = told(with, without, hasOtherResult(before, word[1], word[2]));
                if (what.equals("hidden") || what.equals("differs")) {
                    System.out.println(what + " " + line + ": " + with + " and " + without);
                }
                counts.merge(what, 1, Integer::sum);
            }
        }
        counts.forEach((what, count) -> System.out.println("count " + count + " " + what));
        System.exit(0);
    }

    private Refused() {
    }

    private static String told(String with, String without, boolean hasOtherResult) {
        if (with.startsWith("no client") || without.startsWith("no client")) {
            return "hidden";
        }
        if (!without.equals("IllegalAccessError") || !(with.equals("uncalled") || with.equals("untyped"))) {
            return "differs";
        }
        return with.equals("untyped") || hasOtherResult ? "uncompiled" : "refused";
    }

    /** Whether the class has a public method of this name and these parameters, of its own or from above, so that no client has one that isn't public (JLS 8.4.8.3). */
    private static boolean hasOtherResult(References.Release release, String above, String member) {
        String signature = member.substring(0, member.indexOf(')') + 1);
        return release.publicMethods(above).stream().anyMatch(method -> method.toString().startsWith(signature));
    }

    /** How a call by an interface above the class ends; where none has the method, whether that is for want of a class of the descriptor. */
    private static String outcome(References.Release release, String above, String member) {
        String name = member.substring(0, member.indexOf('('));
        String descriptor = member.substring(member.indexOf('('));
        try {
            Class<?> client = new Warned.Clients(release).define("refused.U", Written.ofOwn("refused/U", above, name, descriptor));
            Object object = Warned.UNSAFE.allocateInstance(client);
            MethodType type = MethodType.fromMethodDescriptorString(descriptor, release);
            for (Class<?> called : interfaces(client)) {
                MethodHandle method = method(called, name, type);
                if (method != null) {
                    return outcome(method, object);
                }
            }
            return "uncalled";
        } catch (TypeNotPresentException missing) {
            return "untyped";
        } catch (ReflectiveOperationException | LinkageError fault) {
            return "no client: " + fault;
        }
    }

    private static String outcome(MethodHandle method, Object object) {
        List<Object> arguments = new ArrayList<>(List.of(object));
        for (Class<?> parameter : method.type().parameterList().subList(1, method.type().parameterCount())) {
            // the zero or null of the type
            arguments.add(Array.get(Array.newInstance(parameter, 1), 0));
        }
        try {
            method.invokeWithArguments(arguments);
            return "runs";
        } catch (Throwable fault) {
            return fault.getClass().getSimpleName();
        }
    }

    /** The instance method of the interface; null where it has none. */
    private static MethodHandle method(Class<?> called, String name, MethodType type) {
        try {
            Lookup lookup = Modifier.isPublic(called.getModifiers()) ? MethodHandles.publicLookup() : MethodHandles.privateLookupIn(called, MethodHandles.lookup());
            return lookup.findVirtual(called, name, type);
        } catch (ReflectiveOperationException none) {
            return null;
        }
    }

    private static Set<Class<?>> interfaces(Class<?> type) {
        Set<Class<?>> interfaces = new LinkedHashSet<>();
        for (Class<?> at = type; at != null; at = at.getSuperclass()) {
            for (Class<?> direct : at.getInterfaces()) {
                interfaces.add(direct);
                interfaces.addAll(interfaces(direct));
            }
        }
        return interfaces;
    }
}
