import java.io.BufferedInputStream;
import java.io.DataInputStream;
import java.io.IOException;
import java.io.InputStream;
import java.io.UncheckedIOException;
import java.lang.invoke.MethodHandle;
import java.lang.invoke.MethodHandles;
import java.lang.invoke.MethodHandles.Lookup;
import java.lang.invoke.MethodType;
import java.lang.reflect.Modifier;
import java.net.URL;
import java.net.URLClassLoader;
import java.nio.file.Files;
import java.nio.file.Path;
import java.util.ArrayList;
import java.util.HashMap;
import java.util.HashSet;
import java.util.List;
import java.util.Locale;
import java.util.Map;
import java.util.Set;
import java.util.TreeSet;
import java.util.stream.Collectors;
import java.util.stream.Stream;

/**
 * Asks this Java virtual machine which method references of clients break between two releases:
 * <code>java References.java OLD NEW [LIBRARY]..</code>, folders of class files.
 *
 * <p>Of each class of the old release that a client can name with both releases, each public method that the class has or gets from above is looked up by a
 * client of another package, as a constant of a method handle is (JVMS 5.4.3.5), and taken apart by <code>Lookup.revealDirect</code>, as
 * <code>LambdaMetafactory</code> does. A reference is <em>broken</em> where both go well with the old release, and with the new one the method is still found
 * and can't be taken apart. Constructors aren't asked, nor methods that aren't public, of which <code>javac</code> makes a lambda. No code of a release runs.
 *
 * <p>A line <code>broken CLASS METHOD</code>, with the reason behind it, tells each one, and one that begins with <code>bridged</code> a reference to a method that
 * a compiler made in the old release: <code>javac</code> names none, though another class file may. A last line says how many classes and references were
 * asked, and how many of these references are broken, bridged, unfound (the method is gone, closed or of another kind), untyped (a type of the descriptor is gone)
 * or unlinked (the machine can't link the class with the new release). Unasked are those for which one of the last two holds with the old release.
 */
public final class References {
    private static final String CLIENT = Client.class.getName();
    /** ACC_SYNTHETIC (JVMS 4.6). */
    private static final int SYNTHETIC = 0x1000;

    private final Release before;
    private final Release after;
    private final Map<String, Integer> counts = new HashMap<>();

    public static void main(String[] words) throws IOException {
        List<String> libraries = List.of(words).subList(2, words.length);
        References references = new References(new Release(words[0], libraries), new Release(words[1], libraries));
        for (String name : names(Path.of(words[0]))) {
            references.compare(name);
        }
        System.out.println(Stream.of("classes", "asked", "broken", "bridged", "unfound", "untyped", "unlinked", "unasked").map(references::counted).collect(Collectors.joining(" ")));
    }

    private References(Release before, Release after) {
        this.before = before;
        this.after = after;
    }

    private String counted(String what) {
        return what + " " + counts.getOrDefault(what, 0);
    }

    private void add(String what) {
        counts.merge(what, 1, Integer::sum);
    }

    private static Set<String> names(Path release) throws IOException {
        try (Stream<Path> files = Files.walk(release)) {
            return files.map(file -> release.relativize(file).toString()).filter(file -> file.endsWith(".class") && !file.equals("module-info.class"))
                    .map(file -> file.substring(0, file.length() - ".class".length())).collect(Collectors.toCollection(TreeSet::new));
        }
    }

    private void compare(String name) {
        Class<?> old = before.named(name);
        Class<?> now = after.named(name);
        // a handle says whether its class is an interface
        if (old != null && now != null && old.isInterface() == now.isInterface()) {
            add("classes");
            for (Method method : before.publicMethods(name)) {
                compare(method, before.outcome(old, method), after.outcome(now, method), name);
            }
        }
    }

    private void compare(Method method, Outcome with, Outcome without, String name) {
        if (with.end == End.UNTYPED || with.end == End.UNLINKED) {
            add("unasked");
        } else if (with.end == End.OK) {
            String what = without.end == End.BROKEN && with.isSynthetic ? "bridged" : without.end.name().toLowerCase(Locale.ROOT);
            add("asked");
            add(what);
            if (without.end == End.BROKEN) {
                System.out.println(what + " " + name + " " + method + ": " + without.reason);
            }
        }
    }

    /** How a reference ends. */
    private enum End {
        OK, BROKEN, UNFOUND, UNTYPED, UNLINKED
    }

    /** How a reference ends: why where it is broken, and whether a compiler made the method where it is none. */
    private record Outcome(End end, String reason, boolean isSynthetic) {
        Outcome(End end) {
            this(end, "", false);
        }
    }

    /** Is defined by a loader below each release, so that its package is none of the release's. */
    public static final class Client {
        private Client() {
        }

        public static Lookup lookup() {
            return MethodHandles.lookup();
        }
    }

    /** A method as a reference names it. */
    record Method(String name, String descriptor, boolean isStatic) implements Comparable<Method> {
        @Override
        public int compareTo(Method other) {
            return text().compareTo(other.text());
        }

        private String text() {
            return this + (isStatic ? " static" : "");
        }

        @Override
        public String toString() {
            return name + descriptor;
        }
    }

    /** What a class file declares. */
    private static final class Declared {
        private final List<String> above = new ArrayList<>();
        private final List<Method> methods = new ArrayList<>();

        /** Reads a class file (JVMS 4.1). */
        Declared(DataInputStream file) throws IOException {
            file.skipNBytes(8);
            Object[] pool = pool(file);
            // its own flags and name
            file.skipNBytes(4);
            int superclass = file.readUnsignedShort();
            if (superclass != 0) {
                above.add((String) pool[(Integer) pool[superclass]]);
            }
            for (int left = file.readUnsignedShort(); left > 0; left--) {
                above.add((String) pool[(Integer) pool[file.readUnsignedShort()]]);
            }
            members(file, pool, false);
            members(file, pool, true);
        }

        /** Of each entry of a constant pool (JVMS 4.4) its text or the entry that has it, where there is one. */
        private static Object[] pool(DataInputStream file) throws IOException {
            Object[] pool = new Object[file.readUnsignedShort()];
            for (int at = 1; at < pool.length; at++) {
                switch (file.readUnsignedByte()) {
                    case 1 -> pool[at] = file.readUTF();
                    case 7 -> pool[at] = file.readUnsignedShort();
                    case 8, 16, 19, 20 -> file.skipNBytes(2);
                    case 15 -> file.skipNBytes(3);
                    case 5, 6 -> {
                        file.skipNBytes(8);
                        at++;
                    }
                    default -> file.skipNBytes(4);
                }
            }
            return pool;
        }

        private void members(DataInputStream file, Object[] pool, boolean areMethods) throws IOException {
            for (int left = file.readUnsignedShort(); left > 0; left--) {
                int flags = file.readUnsignedShort();
                String name = (String) pool[file.readUnsignedShort()];
                String descriptor = (String) pool[file.readUnsignedShort()];
                if (areMethods && Modifier.isPublic(flags) && !name.startsWith("<")) {
                    methods.add(new Method(name, descriptor, Modifier.isStatic(flags)));
                }
                for (int attributes = file.readUnsignedShort(); attributes > 0; attributes--) {
                    file.skipNBytes(2);
                    file.skipNBytes(Integer.toUnsignedLong(file.readInt()));
                }
            }
        }
    }

    /** The classes of a release and of libraries, beside the JDK. */
    static final class Release extends URLClassLoader {
        private final Map<String, Declared> files = new HashMap<>();
        private final Lookup client;

        Release(String release, List<String> libraries) throws IOException {
            super(folders(release, libraries));
            client = client();
        }

        private static URL[] folders(String release, List<String> libraries) throws IOException {
            List<URL> folders = new ArrayList<>(List.of(Path.of(release).toAbsolutePath().normalize().toUri().toURL()));
            for (String library : libraries) {
                folders.add(Path.of(library).toAbsolutePath().normalize().toUri().toURL());
            }
            return folders.toArray(URL[]::new);
        }

        private Lookup client() throws IOException {
            try (InputStream file = References.class.getResourceAsStream(CLIENT + ".class")) {
                return (Lookup) new Below(this).define(file.readAllBytes()).getMethod("lookup").invoke(null);
            } catch (ReflectiveOperationException impossible) {
                throw new IllegalStateException(impossible);
            }
        }

        /** The class, where a client can name it. */
        Class<?> named(String name) {
            try {
                return client.accessClass(Class.forName(name.replace('/', '.'), false, this));
            } catch (ReflectiveOperationException | LinkageError none) {
                return null;
            }
        }

        /** The public methods that the class, and what stands above it, declares. */
        Set<Method> publicMethods(String name) {
            Set<Method> methods = new TreeSet<>();
            Set<String> seen = new HashSet<>();
            List<String> left = new ArrayList<>(List.of(name));
            while (!left.isEmpty()) {
                String type = left.remove(left.size() - 1);
                if (seen.add(type)) {
                    Declared file = files.computeIfAbsent(type, this::declared);
                    methods.addAll(file.methods);
                    left.addAll(file.above);
                }
            }
            return methods;
        }

        private Declared declared(String name) {
            try (DataInputStream file = new DataInputStream(new BufferedInputStream(getResourceAsStream(name + ".class")))) {
                return new Declared(file);
            } catch (IOException failure) {
                throw new UncheckedIOException(failure);
            }
        }

        Outcome outcome(Class<?> owner, Method method) {
            MethodHandle found;
            try {
                MethodType type = type(method);
                found = method.isStatic ? client.findStatic(owner, method.name, type) : client.findVirtual(owner, method.name, type);
            } catch (TypeNotPresentException missing) {
                return new Outcome(End.UNTYPED);
            } catch (ReflectiveOperationException | LinkageError fault) {
                return new Outcome(isOfLookup(fault) ? End.UNFOUND : End.UNLINKED);
            }
            try {
                return new Outcome(End.OK, "", (client.revealDirect(found).getModifiers() & SYNTHETIC) != 0);
            } catch (IllegalArgumentException | LinkageError closed) {
                // without the name of its own class, and of the client
                return new Outcome(End.BROKEN, String.valueOf(closed.getMessage()).replaceFirst("^[a-zA-Z.]*Exception: ", "").replaceFirst(", from .*", ""), false);
            }
        }

        /** The type of the method, each part of which a client has to be able to name (JVMS 5.4.3.5). */
        private MethodType type(Method method) {
            try {
                MethodType type = MethodType.fromMethodDescriptorString(method.descriptor, this);
                client.accessClass(element(type.returnType()));
                for (Class<?> parameter : type.parameterList()) {
                    client.accessClass(element(parameter));
                }
                return type;
            } catch (IllegalAccessException | LinkageError missing) {
                throw new TypeNotPresentException(method.descriptor, missing);
            }
        }

        private static Class<?> element(Class<?> type) {
            return type.isArray() ? element(type.getComponentType()) : type;
        }

        /** Whether a search ended so for want of the method, its access or its kind, and not since a class can't be linked. */
        private static boolean isOfLookup(Throwable fault) {
            Throwable cause = fault.getCause() == null ? fault : fault.getCause();
            return cause instanceof ReflectiveOperationException || cause instanceof IncompatibleClassChangeError;
        }
    }

    private static final class Below extends ClassLoader {
        Below(ClassLoader release) {
            super(release);
        }

        Class<?> define(byte[] file) {
            return defineClass(CLIENT, file, 0, file.length);
        }
    }
}
