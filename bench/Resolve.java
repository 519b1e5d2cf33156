import java.io.IOException;
import java.io.InputStream;
import java.io.UncheckedIOException;
import java.lang.invoke.MethodHandle;
import java.lang.invoke.MethodHandles;
import java.lang.invoke.MethodHandles.Lookup;
import java.lang.invoke.MethodType;
import java.lang.reflect.Modifier;
import java.net.URL;
import java.net.URLClassLoader;
import java.nio.file.Files;
import java.nio.file.Path;
import java.util.ArrayList;
import java.util.HashMap;
import java.util.List;
import java.util.Map;
import java.util.Map.Entry;
import java.util.TreeMap;
import java.util.TreeSet;

/**
 * Asks this Java virtual machine for the outcomes that <code>jcompat link</code> prints:
 * <code>java Resolve.java OUTCOMES RELEASE CLIENT [LIBRARY]..</code>, where OUTCOMES is what it printed, and the others are folders of class files.
 *
 * <p>Each class of the client is loaded and, unless an item of it has a <code>VerifyError</code>, verified. Each item is looked up with the access
 * of its class, as a constant of a method handle is resolved (JVMS 5.4.3.5), and no code of the client or of the library runs. An assignment, and what
 * the receiver of a use has to be, is asked of the verifier, for the whole class, but for an assignment to <code>java.lang.Object</code>, at which HotSpot
 * doesn't look (docs/LINKING.md); that the kinds of a class and of a reference agree (JVMS 5.4.3.3), and
 * that no object is made of an abstract class, is computed from the flags that the machine tells.
 *
 * <p>A line says where the machine differs, and a last one how many outcomes were compared, how many of these are errors, how many differ, how many classes
 * were verified, how many outcomes weren't asked, since a type of a descriptor isn't there or a module closes the class, and how many differ. The status is 1
 * where one differs.
 */
public final class Resolve {
    private final World clients;
    private final Map<String, Integer> counts = new HashMap<>();

    public static void main(String[] words) throws IOException {
        List<URL> folders = new ArrayList<>();
        for (String folder : List.of(words).subList(1, words.length)) {
            folders.add(Path.of(folder).toAbsolutePath().normalize().toUri().toURL());
        }
        Resolve resolve = new Resolve(new World(folders.toArray(URL[]::new)));
        Map<String, List<String[]>> items = new TreeMap<>();
        for (String line : Files.readAllLines(Path.of(words[0]))) {
            String[] word = line.split(" ");
            if (word[0].equals("class")) {
                items.put(word[1], new ArrayList<>(List.of(new String[][] {word})));
            } else if (word[0].equals("item")) {
                items.get(word[1]).add(word);
            }
        }
        for (Entry<String, List<String[]>> client : items.entrySet()) {
            resolve.compare(client.getKey(), client.getValue());
        }
        System.out.printf("compared %d errors %d verified %d unasked %d differ %d%n", resolve.count("compared"), resolve.count("errors"),
                resolve.count("verified"), resolve.count("unasked"), resolve.count("differ"));
        System.exit(resolve.count("differ") == 0 ? 0 : 1);
    }

    private Resolve(World clients) {
        this.clients = clients;
    }

    private int count(String what) {
        return counts.getOrDefault(what, 0);
    }

    private void add(String what) {
        counts.merge(what, 1, Integer::sum);
    }

    /** Compares the outcomes of a class and of its items. */
    private void compare(String name, List<String[]> lines) {
        Class<?> client = null;
        String load = "ok";
        try {
            client = Class.forName(name.replace('/', '.'), false, clients);
        } catch (ClassNotFoundException | LinkageError fault) {
            load = error(fault);
        }
        told(lines.get(0), load);
        if (client == null) {
            return;
        }
        boolean isVerified = true;
        for (String[] item : lines.subList(1, lines.size())) {
            if (item[item.length - 1].equals("VerifyError")) {
                // the verifier lets every reference pass as this class
                isVerified &= item[2].equals("assign") && item[4].equals("java/lang/Object");
            } else if (!item[2].equals("assign")) {
                told(item, resolved(client, item));
            }
        }
        verify(client, isVerified);
    }

    /** Whether the machine verifies the class where each of its assignments is ok, and refuses it where one isn't. */
    private void verify(Class<?> client, boolean isVerified) {
        String fault = "ok";
        try {
            // to ask for its methods links a class (JVMS 5.4)
            client.getDeclaredMethods();
        } catch (NoClassDefFoundError missing) {
            // of a type of a method, or one that the verifier loads
            add("unasked");
            return;
        } catch (LinkageError refused) {
            fault = error(refused) + ": " + String.valueOf(refused.getMessage()).lines().findFirst().orElse("");
        }
        add("verified");
        if (fault.startsWith("VerifyError") == isVerified) {
            add("differ");
            System.out.println("differs verification of " + client.getName() + ": " + fault);
        }
    }

    private void told(String[] line, String answer) {
        String printed = line[line.length - 1];
        if (answer == null) {
            add("unasked");
            return;
        }
        add("compared");
        if (!printed.equals("ok")) {
            add("errors");
        }
        if (!printed.equals(answer)) {
            add("differ");
            System.out.println("differs " + String.join(" ", line) + ": " + answer);
        }
    }

    /** What the machine says of an item; null where it can't be asked. */
    private String resolved(Class<?> client, String[] item) {
        String act = item[2];
        String member = item[4];
        Lookup lookup = clients.lookup(client);
        boolean isLoaded = false;
        try {
            Class<?> owner = owner(item[3]);
            isLoaded = true;
            lookup.accessClass(element(owner));
            if (act.equals("new") && Modifier.isAbstract(owner.getModifiers())) {
                return "InstantiationError";
            }
            if (member.equals("-")) {
                return "ok";
            }
            int colon = member.indexOf(':');
            if (colon >= 0) {
                return field(lookup, act, owner, member.substring(0, colon), type("()" + member.substring(colon + 1)).returnType());
            }
            int open = member.indexOf('(');
            return method(lookup, act, owner, member.substring(0, open), type(member.substring(open)));
        } catch (TypeNotPresentException missing) {
            return null;
        } catch (ReflectiveOperationException | LinkageError fault) {
            // who calls such a method is the machine's to say
            boolean isOfCaller = String.valueOf(fault.getMessage()).contains("caller-sensitive");
            // a handle links the class, for which others may be missing; an instruction needn't
            boolean isLinked = isLoaded && error(fault).equals("NoClassDefFoundError");
            boolean isClosed = error(fault).equals("IllegalAccessError") && isClosedByModule(item[3]);
            return isOfCaller || isLinked || isClosed ? null : error(fault);
        }
    }

    private String field(Lookup lookup, String act, Class<?> owner, String name, Class<?> type) throws ReflectiveOperationException {
        // a class puts to its own final field in its initializer, which no handle does
        boolean isPut = act.startsWith("put") && owner != lookup.lookupClass();
        if (act.endsWith("static")) {
            return found(isPut ? lookup.findStaticSetter(owner, name, type) : lookup.findStaticGetter(owner, name, type));
        }
        return found(isPut ? lookup.findSetter(owner, name, type) : lookup.findGetter(owner, name, type));
    }

    private static String found(MethodHandle handle) {
        return "ok";
    }

    private String method(Lookup lookup, String act, Class<?> owner, String name, MethodType type) throws ReflectiveOperationException {
        if (act.equals("new")) {
            lookup.findConstructor(owner, type);
        } else if (act.equals("init")) {
            initializer(lookup, owner, type);
        } else if (owner.isInterface() != act.endsWith("interface")) {
            return "IncompatibleClassChangeError";
        } else if (act.startsWith("invokestatic")) {
            lookup.findStatic(owner, name, type);
        } else if (act.startsWith("invokespecial")) {
            lookup.findSpecial(owner, name, type, lookup.lookupClass());
        } else {
            lookup.findVirtual(owner, name, type);
        }
        return "ok";
    }

    /** A subclass may call a protected constructor, by which it can't make an object. */
    private static void initializer(Lookup lookup, Class<?> owner, MethodType type) throws ReflectiveOperationException {
        try {
            lookup.findConstructor(owner, type);
        } catch (IllegalAccessException closed) {
            if (!Modifier.isProtected(owner.getDeclaredConstructor(type.parameterArray()).getModifiers())) {
                throw closed;
            }
        }
    }

    private Class<?> owner(String name) throws ClassNotFoundException {
        return Class.forName(name.replace('/', '.'), false, clients);
    }

    private static Class<?> element(Class<?> type) {
        return type.isArray() ? element(type.getComponentType()) : type;
    }

    private MethodType type(String descriptor) {
        try {
            return MethodType.fromMethodDescriptorString(descriptor, clients);
        } catch (LinkageError missing) {
            throw new TypeNotPresentException(descriptor, missing);
        }
    }

    private boolean isClosedByModule(String name) {
        try {
            Class<?> owner = element(owner(name));
            return owner.getModule().isNamed() && !owner.getModule().isExported(owner.getPackageName(), clients.getUnnamedModule());
        } catch (ClassNotFoundException | LinkageError none) {
            return false;
        }
    }

    /** The error of an instruction whose lookup ends so (JVMS 5.4.3.5). */
    private static String error(Throwable fault) {
        if (fault.getCause() instanceof LinkageError) {
            return fault.getCause().getClass().getSimpleName();
        }
        if (fault instanceof ClassNotFoundException) {
            return "NoClassDefFoundError";
        }
        if (fault instanceof NoSuchMethodException) {
            return "NoSuchMethodError";
        }
        if (fault instanceof NoSuchFieldException) {
            return "NoSuchFieldError";
        }
        if (fault instanceof IllegalAccessException) {
            return String.valueOf(fault.getMessage()).contains("expected ") ? "IncompatibleClassChangeError" : "IllegalAccessError";
        }
        return fault.getClass().getSimpleName();
    }

    /** The classes of the clients, of a release and of libraries, beside the JDK. */
    private static final class World extends URLClassLoader {
        private static final String INSIDE = Inside.class.getName();

        World(URL[] folders) {
            super(folders);
        }

        /** The access of a class, whole: it has to be asked for in the class's own module. */
        Lookup lookup(Class<?> type) {
            try {
                return (Lookup) loadClass(INSIDE).getMethod("lookup", Class.class).invoke(null, type);
            } catch (ReflectiveOperationException impossible) {
                throw new IllegalStateException(impossible);
            }
        }

        @Override
        protected Class<?> loadClass(String name, boolean isLinked) throws ClassNotFoundException {
            return name.equals(INSIDE) && findLoadedClass(name) == null ? inside() : super.loadClass(name, isLinked);
        }

        private Class<?> inside() {
            try (InputStream file = Resolve.class.getResourceAsStream(INSIDE + ".class")) {
                byte[] bytes = file.readAllBytes();
                return defineClass(INSIDE, bytes, 0, bytes.length);
            } catch (IOException failure) {
                throw new UncheckedIOException(failure);
            }
        }
    }

    /** Is loaded beside the clients. */
    public static final class Inside {
        private Inside() {
        }

        public static Lookup lookup(Class<?> type) throws IllegalAccessException {
            return MethodHandles.privateLookupIn(type, MethodHandles.lookup());
        }
    }
}
