import java.io.ByteArrayInputStream;
import java.io.DataInputStream;
import java.io.IOException;
import java.lang.reflect.Modifier;
import java.nio.charset.StandardCharsets;
import java.nio.file.FileSystem;
import java.nio.file.FileSystems;
import java.nio.file.Files;
import java.nio.file.Path;
import java.util.ArrayList;
import java.util.EnumMap;
import java.util.EnumSet;
import java.util.HashMap;
import java.util.HashSet;
import java.util.List;
import java.util.Map;
import java.util.Set;
import java.util.TreeSet;
import java.util.stream.Stream;

/**
 * Says which classes of clients are in scope (docs/LINKING.md, Client worlds), by their class files: <code>java Scope.java PLATFORM PAIR..</code>, with
 * folders that bench/inputs.sh has made. Each jar in the folder jars of a pair is a world of clients.
 *
 * <p>A line on standard error for each class that misses a premise, with all that it misses, and at the end a table in Markdown: how many worlds, packages and
 * classes have each. <code>NAME</code>, <code>LOADS</code> and <code>CALLS</code> were asked of clients before, in the place of <code>PERMITTED</code> and <code>OPEN</code>. Whether a class overrides a final method isn't
 * asked; that it calls a constructor of its superclass is taken from the names in its pool, and a private one counts as accessible in its package.
 */
public final class Scope {
    private enum Premise {
        DIFFER("no class of the platform or a release has its name"),
        ABOVE("none of these names it above itself"),
        PACKAGE("none of these has its package"),
        NAME("its name is a UTF-8 text of at most 4,090 bytes"),
        LOADS("it is an interface, or loads with the old release"),
        CALLS("it is an interface, or calls a constructor of its superclass"),
        PERMITTED("no class of the old release permits it, or its name is such a text"),
        OPEN("it is an interface, or doesn't load, or its superclass is open to clients");

        private static final Set<Premise> BEFORE = EnumSet.of(NAME, LOADS, CALLS);
        private static final Set<Premise> NOW = EnumSet.of(PERMITTED, OPEN);

        private final String words;

        Premise(String words) {
            this.words = words;
        }
    }

    /** An initializer, or a call of one. */
    private record Init(String descriptor, int flags) {
        boolean isOpen() {
            return (flags & (Modifier.PUBLIC | Modifier.PROTECTED)) != 0;
        }
    }

    /** What the premises ask of a class file; permitted is null where all are. */
    private record Type(String name, int flags, String superclass, List<String> interfaces, List<Init> inits, Set<String> calls, List<String> permitted) {
        boolean isInterface() {
            return Modifier.isInterface(flags);
        }

        String inPackage() {
            return name.substring(0, Math.max(name.lastIndexOf('/'), 0));
        }

        List<String> above() {
            List<String> names = new ArrayList<>(interfaces);
            if (superclass != null) {
                names.add(superclass);
            }
            return names;
        }

        boolean isAccessible(Type from) {
            return Modifier.isPublic(flags) || inPackage().equals(from.inPackage());
        }

        boolean isOpenTo(Type lower, boolean asInterface) {
            return isAccessible(lower) && isInterface() == asInterface && !Modifier.isFinal(flags) && (permitted == null || permitted.contains(lower.name));
        }
    }

    /** Classes of a platform or a release, their packages, and the names above them. */
    private static final class Library {
        final Map<String, Type> types = new HashMap<>();
        final Set<String> packages = new HashSet<>();
        final Set<String> above = new HashSet<>();

        void add(Path folder) throws IOException {
            for (Type type : read(folder)) {
                types.put(type.name, type);
                packages.add(type.inPackage());
                above.addAll(type.above());
            }
        }
    }

    /** The clients of a jar over the old release: what has the name, first, and whether it loads. */
    private static final class World {
        final Map<String, Type> clients = new HashMap<>();
        final List<Library> sides;
        private final Map<String, Boolean> loaded = new HashMap<>();

        World(List<Library> sides, List<Type> clients) {
            this.sides = sides;
            clients.forEach(client -> this.clients.put(client.name, client));
        }

        boolean permits(String name) {
            return sides.stream().flatMap(side -> side.types.values().stream()).anyMatch(type -> type.permitted != null && type.permitted.contains(name));
        }

        Type find(String name) {
            for (Library side : sides) {
                if (side.types.containsKey(name)) {
                    return side.types.get(name);
                }
            }
            return clients.get(name);
        }

        boolean loads(String name) {
            Boolean known = loaded.putIfAbsent(name, false);
            if (known != null) {
                return known;
            }
            Type type = find(name);
            boolean is = type != null && type.above().stream().allMatch(this::loads)
                    && (type.superclass == null || find(type.superclass).isOpenTo(type, false))
                    && type.interfaces.stream().allMatch(above -> find(above).isOpenTo(type, true));
            loaded.put(name, is);
            return is;
        }

        boolean callsSuper(Type client) {
            Type above = find(client.superclass);
            return !client.inits.isEmpty() && (above == null ? !client.calls.isEmpty() : above.inits.stream()
                    .anyMatch(init -> client.calls.contains(init.descriptor) && (init.isOpen() || above.inPackage().equals(client.inPackage()))));
        }

        boolean hasOpenSuper(Type client) {
            return clients.containsKey(client.superclass) || find(client.superclass).inits.stream().anyMatch(Init::isOpen);
        }
    }

    private final Map<Premise, int[]> having = new EnumMap<>(Premise.class);
    private final int[] all = new int[3];
    private final int[] before = new int[3];
    private final int[] after = new int[3];

    public static void main(String[] words) throws IOException {
        Scope scope = new Scope();
        Library platform = new Library();
        platform.add(Path.of(words[0]));
        for (String word : List.of(words).subList(1, words.length)) {
            scope.judge(platform, Path.of(word));
        }
        System.out.printf("| each class | worlds | packages | classes |%n|---|---|---|---|%n");
        row("is a client", scope.all);
        scope.having.forEach((premise, counts) -> row(premise.words, counts));
        row("has all of these but the last two, as was asked before", scope.before);
        row("has all of these but the three before the last two, as is asked", scope.after);
    }

    private static void row(String words, int[] counts) {
        System.out.printf("| %s | %,d | %,d | %,d |%n", words, counts[0], counts[1], counts[2]);
    }

    private void judge(Library platform, Path pair) throws IOException {
        Library with = new Library();
        Library older = new Library();
        Library newer = new Library();
        older.add(pair.resolve("old"));
        newer.add(pair.resolve("new"));
        if (Files.isDirectory(pair.resolve("with"))) {
            with.add(pair.resolve("with"));
        }
        try (Stream<Path> jars = Files.list(pair.resolve("jars"))) {
            for (Path jar : jars.sorted().toList()) {
                try (FileSystem files = FileSystems.newFileSystem(jar)) {
                    List<Type> clients = read(files.getPath("/"));
                    clients.removeIf(client -> platform.types.containsKey(client.name));
                    if (!clients.isEmpty()) {
                        count(pair.getFileName() + " " + jar.getFileName(), clients, new World(List.of(platform, older, with), clients), List.of(platform, older, newer, with));
                    }
                }
            }
        }
    }

    private void count(String place, List<Type> clients, World world, List<Library> libraries) {
        Map<Type, Set<Premise>> missed = new HashMap<>();
        for (Type client : clients) {
            missed.put(client, missed(client, world, libraries));
            if (!missed.get(client).isEmpty()) {
                System.err.println(place + " " + client.name + " " + missed.get(client));
            }
        }
        add(all, missed, EnumSet.noneOf(Premise.class));
        for (Premise premise : Premise.values()) {
            add(having.computeIfAbsent(premise, key -> new int[3]), missed, EnumSet.of(premise));
        }
        add(before, missed, EnumSet.complementOf(EnumSet.copyOf(Premise.NOW)));
        add(after, missed, EnumSet.complementOf(EnumSet.copyOf(Premise.BEFORE)));
    }

    /** Counts the world, and the packages and classes of it, where none of these premises is missed. */
    private static void add(int[] counts, Map<Type, Set<Premise>> missed, Set<Premise> premises) {
        Set<String> packages = new TreeSet<>();
        Set<String> missing = new TreeSet<>();
        missed.forEach((client, misses) -> {
            boolean has = misses.stream().noneMatch(premises::contains);
            (has ? packages : missing).add(client.inPackage());
            counts[2] += has ? 1 : 0;
        });
        packages.removeAll(missing);
        counts[1] += packages.size();
        counts[0] += missing.isEmpty() ? 1 : 0;
    }

    private static Set<Premise> missed(Type client, World world, List<Library> libraries) {
        Set<Premise> missed = EnumSet.noneOf(Premise.class);
        for (Library library : libraries) {
            if (library.types.containsKey(client.name)) {
                missed.add(Premise.DIFFER);
            }
            if (library.above.contains(client.name)) {
                missed.add(Premise.ABOVE);
            }
            if (library.packages.contains(client.inPackage())) {
                missed.add(Premise.PACKAGE);
            }
        }
        if (client.name.getBytes(StandardCharsets.UTF_8).length > 4090 || client.name.chars().anyMatch(unit -> unit == 0 || Character.isSurrogate((char) unit))) {
            missed.add(Premise.NAME);
            if (world.permits(client.name)) {
                missed.add(Premise.PERMITTED);
            }
        }
        if (!client.isInterface() && !world.loads(client.name)) {
            missed.add(Premise.LOADS);
        }
        if (!client.isInterface() && !world.callsSuper(client)) {
            missed.add(Premise.CALLS);
        }
        if (!client.isInterface() && world.loads(client.name) && !world.hasOpenSuper(client)) {
            missed.add(Premise.OPEN);
        }
        return missed;
    }

    /** The classes of a folder, but for what check passes over. */
    private static List<Type> read(Path folder) throws IOException {
        List<Type> types = new ArrayList<>();
        try (Stream<Path> paths = Files.walk(folder)) {
            for (Path path : (Iterable<Path>) paths::iterator) {
                String name = folder.relativize(path).toString();
                if (name.endsWith(".class") && !name.startsWith("META-INF/") && !name.equals("module-info.class")) {
                    types.add(type(new DataInputStream(new ByteArrayInputStream(Files.readAllBytes(path)))));
                }
            }
        }
        return types;
    }

    /** Reads a class file (JVMS 4.1). */
    private static Type type(DataInputStream in) throws IOException {
        in.skipBytes(8);
        String[] texts = new String[in.readUnsignedShort()];
        int[][] entries = new int[texts.length][];
        for (int i = 1; i < texts.length; i++) {
            int tag = in.readUnsignedByte();
            switch (tag) {
                case 1 -> texts[i] = in.readUTF();
                case 7, 8, 16, 19, 20 -> entries[i] = new int[] {tag, in.readUnsignedShort()};
                case 15 -> in.skipBytes(3);
                case 5, 6 -> {
                    in.skipBytes(8);
                    i++;
                }
                default -> entries[i] = new int[] {tag, in.readUnsignedShort(), in.readUnsignedShort()};
            }
        }
        int flags = in.readUnsignedShort();
        String name = texts[entries[in.readUnsignedShort()][1]];
        int above = in.readUnsignedShort();
        String superclass = above == 0 ? null : texts[entries[above][1]];
        List<String> interfaces = classes(in, texts, entries);
        List<Init> inits = new ArrayList<>();
        for (int members = 0; members < 2; members++) {
            for (int count = in.readUnsignedShort(); count > 0; count--) {
                int memberFlags = in.readUnsignedShort();
                String member = texts[in.readUnsignedShort()];
                String descriptor = texts[in.readUnsignedShort()];
                if (member.equals("<init>")) {
                    inits.add(new Init(descriptor, memberFlags));
                }
                for (int attributes = in.readUnsignedShort(); attributes > 0; attributes--) {
                    in.skipBytes(2);
                    in.skipBytes(in.readInt());
                }
            }
        }
        List<String> permitted = null;
        for (int attributes = in.readUnsignedShort(); attributes > 0; attributes--) {
            String attribute = texts[in.readUnsignedShort()];
            int length = in.readInt();
            if (attribute.equals("PermittedSubclasses")) {
                permitted = classes(in, texts, entries);
            } else {
                in.skipBytes(length);
            }
        }
        Set<String> calls = new HashSet<>();
        for (int[] entry : entries) {
            if (entry != null && entry[0] == 10 && texts[entries[entry[1]][1]].equals(superclass) && texts[entries[entry[2]][1]].equals("<init>")) {
                calls.add(texts[entries[entry[2]][2]]);
            }
        }
        return new Type(name, flags, superclass, interfaces, inits, calls, permitted);
    }

    private static List<String> classes(DataInputStream in, String[] texts, int[][] entries) throws IOException {
        List<String> names = new ArrayList<>();
        for (int count = in.readUnsignedShort(); count > 0; count--) {
            names.add(texts[entries[in.readUnsignedShort()][1]]);
        }
        return names;
    }
}
