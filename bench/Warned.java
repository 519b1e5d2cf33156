import java.io.IOException;
import java.lang.reflect.Field;
import java.lang.reflect.InvocationTargetException;
import java.net.URL;
import java.net.URLClassLoader;
import java.nio.file.Files;
import java.nio.file.Path;
import java.util.ArrayList;
import java.util.List;
import java.util.Map;
import java.util.TreeMap;
import sun.misc.Unsafe;

/**
 * Looks for clients of the warnings of <code>jcompat check --warn</code> on this Java virtual machine:
 * <code>java Warned.java OLD NEW REPORT [LIBRARY]..</code>.
 *
 * <p>For each warning on a class and a method two classes of a client are made below that class, which have no method of their own but <code>call</code>,
 * which calls the method on itself with zeros and nulls: <code>plain</code> has the class alone above it, and <code>mixed</code> also an interface of the
 * client's that has the method as a default. No constructor runs. A client is broken where the call finds a method to run with the old release, or there is
 * none by that name, so that only a newer library calls it, and where it ends with the new release by <code>AbstractMethodError</code> or, with two defaults, by
 * <code>IncompatibleClassChangeError</code>. What the method itself does isn't asked. A line says what came of a warning, and the last ones how many of each kind break
 * which client by which error; <code>gone</code> is one whose method isn't there any more, which is a finding too. A warning needn't break any, as where a client must have the method itself with both releases.
 */
public final class Warned {
    static final Unsafe UNSAFE = unsafe();

    private final ClassLoader before;
    private final ClassLoader after;

    public static void main(String[] words) throws IOException {
        List<String> libraries = List.of(words).subList(3, words.length);
        Warned warned = new Warned(loader(words[0], libraries), loader(words[1], libraries));
        Map<String, Integer> counts = new TreeMap<>();
        for (String line : Files.readAllLines(Path.of(words[2]))) {
            String[] word = line.split(" ");
            if (word[0].equals("warning")) {
                String shown = warned.shown(word[1], word[2]);
                System.out.println(line + ": " + shown);
                counts.merge(word[3] + " " + shown.replaceAll("^(\\w+: \\w+).*", "$1").replaceAll("^none.*", "none"), 1, Integer::sum);
            }
        }
        counts.forEach((what, count) -> System.out.println("count " + count + " " + what));
        System.exit(0);
    }

    private Warned(ClassLoader before, ClassLoader after) {
        this.before = before;
        this.after = after;
    }

    private static ClassLoader loader(String release, List<String> libraries) throws IOException {
        List<URL> folders = new ArrayList<>();
        folders.add(Path.of(release).toAbsolutePath().toUri().toURL());
        for (String library : libraries) {
            folders.add(Path.of(library).toAbsolutePath().toUri().toURL());
        }
        return new URLClassLoader(folders.toArray(URL[]::new), ClassLoader.getPlatformClassLoader());
    }

    /** The first client that breaks, and how. */
    private String shown(String above, String member) {
        StringBuilder others = new StringBuilder();
        for (String client : List.of("plain", "mixed")) {
            String with = outcome(before, client.equals("mixed"), above, member);
            String without = outcome(after, client.equals("mixed"), above, member);
            if (isBroken(without) && (with.equals("runs") || with.equals("NoSuchMethodError"))) {
                return client + ": " + without + ", with the old release " + with;
            }
            if (without.equals("NoSuchMethodError") && with.equals("runs")) {
                return "gone: NoSuchMethodError";
            }
            others.append(", ").append(client).append(' ').append(with).append(" and ").append(without);
        }
        return "none" + others;
    }

    private static boolean isBroken(String outcome) {
        return outcome.equals("AbstractMethodError") || outcome.equals("IncompatibleClassChangeError");
    }

    /** How the call of a client ends: the name of its error, or that it runs. */
    private static String outcome(ClassLoader release, boolean isMixed, String above, String member) {
        Clients clients = new Clients(release);
        String[] outcome = {"no end"};
        Thread thread = new Thread(() -> {
            try {
                Class<?> base = Class.forName(above.replace('/', '.'), false, release);
                String name = member.substring(0, member.indexOf('('));
                String descriptor = member.substring(member.indexOf('('));
                if (isMixed) {
                    clients.define("warned.J", Written.ofDefault("warned/J", name, descriptor));
                }
                List<String> interfaces = new ArrayList<>();
                if (base.isInterface()) {
                    interfaces.add(above);
                }
                if (isMixed) {
                    interfaces.add("warned/J");
                }
                Class<?> client = clients.define("warned.U", Written.ofCall("warned/U", base.isInterface() ? "java/lang/Object" : above, interfaces, name, descriptor));
                client.getMethod("call", client).invoke(null, UNSAFE.allocateInstance(client));
                outcome[0] = "runs";
            } catch (InvocationTargetException called) {
                // what the method itself does isn't asked: an error below its frame is the library's
                Throwable cause = called.getCause();
                StackTraceElement[] frames = cause.getStackTrace();
                boolean isOwn = cause instanceof LinkageError && (frames.length == 0 || frames[0].getClassName().equals("warned.U"));
                outcome[0] = isOwn ? cause.getClass().getSimpleName() : "runs";
            } catch (ReflectiveOperationException | LinkageError fault) {
                outcome[0] = "no client: " + fault.getClass().getSimpleName();
            }
        });
        thread.setDaemon(true);
        thread.start();
        try {
            thread.join(20000);
        } catch (InterruptedException stopped) {
            throw new IllegalStateException(stopped);
        }
        return outcome[0];
    }

    private static Unsafe unsafe() {
        try {
            Field field = Unsafe.class.getDeclaredField("theUnsafe");
            field.setAccessible(true);
            return (Unsafe) field.get(null);
        } catch (ReflectiveOperationException impossible) {
            throw new IllegalStateException(impossible);
        }
    }

    static final class Clients extends ClassLoader {
        Clients(ClassLoader release) {
            super(release);
        }

        Class<?> define(String name, Written file) {
            byte[] bytes = file.bytes();
            return defineClass(name, bytes, 0, bytes.length);
        }
    }
}
