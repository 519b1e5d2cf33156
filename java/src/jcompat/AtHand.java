package jcompat;

import java.io.IOException;
import java.nio.charset.StandardCharsets;
import java.nio.file.Files;
import java.nio.file.Path;
import java.nio.file.Paths;
import java.util.ArrayList;
import java.util.HashSet;
import java.util.LinkedHashMap;
import java.util.List;
import java.util.Map;
import java.util.Set;
import java.util.stream.Collectors;
import java.util.stream.Stream;

/** What is at hand: the clients, each with its class path, and other libraries. */
final class AtHand {
    /** A jar or a folder of class files. */
    private static final class Place {
        final String name;
        final Path file;
        final DebianPackage of;

        Place(String name, Path file, DebianPackage of) {
            this.name = name;
            this.file = file;
            this.of = of;
        }
    }

    final List<Client> clients = new ArrayList<>();
    /** All other files in which classes may be found, those that are named as libraries first. */
    final List<Path> pool = new ArrayList<>();
    private final AffectedRequest request;
    private final Cache cache;
    private final Host host;
    private final DebianPackages packages = new DebianPackages();
    private final List<MavenTree> trees = new ArrayList<>();
    /** The old and the new release: jars or folders. */
    final List<Path> releases = new ArrayList<>();
    private final Set<Path> known = new HashSet<>();

    AtHand(AffectedRequest request, Cache cache, Host host) throws IOException, Stop {
        this.request = request;
        this.cache = cache;
        this.host = host;
        for (Path tree : request.trees) {
            addTrees(tree);
        }
        for (Path release : List.of(request.oldRelease, request.newRelease)) {
            if (!Files.exists(release)) {
                throw new Stop("there is no file " + release);
            }
            known.add(release.toRealPath());
            releases.add(DebianPackage.is(release) ? ofPackage(release) : release);
        }
        List<Place> named = places(request.clients);
        List<Place> libraries = places(request.with);
        if (named.isEmpty()) {
            throw new Stop("what was named as clients has no class file, no jar and no package but the releases");
        }
        libraries.forEach(each -> pool.add(each.file));
        named.forEach(each -> pool.add(each.file));
        List<Path> withoutPackages = libraries.stream().filter(each -> each.of == null).map(each -> each.file).collect(Collectors.toList());
        named.forEach(each -> clients.add(client(each, withoutPackages)));
    }

    private void addTrees(Path file) throws IOException, Stop {
        if (!Files.isReadable(file)) {
            throw new Stop(file + ", which has what mvn dependency:tree printed, can't be read");
        }
        List<MavenTree> read = MavenTree.read(new String(Files.readAllBytes(file), StandardCharsets.UTF_8));
        if (read.isEmpty()) {
            throw new Stop(file + " has no line as of mvn dependency:tree");
        }
        trees.addAll(read);
    }

    /** The classes of all jars of a package, in a folder of its name; of several that have a class, the first counts. */
    private Path ofPackage(Path file) throws IOException, Stop {
        DebianPackage one = new DebianPackage(file, cache.work("package."));
        packages.add(one);
        Path all = Files.createDirectories(cache.work("release.").resolve(file.getFileName()));
        Folders.Maker maker = new Folders.Maker();
        for (Path jar : one.jars) {
            try (Source source = Source.open(jar)) {
                for (String path : source.paths) {
                    if (path.endsWith(Names.CLASS) && !path.startsWith("META-INF/") && !path.endsWith(Names.MODULE) && !Files.exists(all.resolve(path))) {
                        maker.put(all.resolve(path), source.bytes(path, Integer.MAX_VALUE - 8));
                    }
                }
            }
        }
        return all;
    }

    /** Each file once, by whatever name, but for the releases. */
    private List<Place> places(List<Path> named) throws IOException, Stop {
        Map<Path, Place> found = new LinkedHashMap<>();
        for (Path file : named) {
            if (!Files.exists(file)) {
                throw new Stop("there is no file " + file);
            }
            for (Path each : Files.isDirectory(file) ? inside(file) : List.of(file)) {
                if (!known.contains(each.toRealPath())) {
                    add(each, found);
                }
            }
        }
        return new ArrayList<>(found.values());
    }

    /** The folder itself, where it has class files, else the jars and packages in it. */
    private static List<Path> inside(Path folder) throws IOException {
        try (Stream<Path> all = Files.walk(folder)) {
            List<Path> files = all.filter(Files::isRegularFile).sorted().collect(Collectors.toList());
            if (files.stream().anyMatch(file -> file.toString().endsWith(Names.CLASS))) {
                return List.of(folder);
            }
            return files.stream().filter(file -> file.toString().endsWith(".jar") || DebianPackage.is(file)).collect(Collectors.toList());
        }
    }

    private void add(Path file, Map<Path, Place> found) throws IOException, Stop {
        if (!DebianPackage.is(file)) {
            found.putIfAbsent(file.toRealPath(), new Place(file.toString(), file, null));
        } else if (!found.containsKey(file.toRealPath())) {
            DebianPackage one = new DebianPackage(file, cache.work("package."));
            packages.add(one);
            for (Path jar : one.jars) {
                found.put(jar, new Place(one.name + ": " + jar.getFileName(), jar, one));
            }
        }
    }

    private Client client(Place place, List<Path> libraries) {
        MavenTree tree = trees.stream().filter(each -> each.isOf(place.file)).findFirst().orElse(null);
        if (tree != null) {
            return ofTree(place, tree, libraries);
        }
        List<Path> path = new ArrayList<>(place.of != null ? packages.classPath(place.of) : pool);
        path.addAll(libraries);
        path.remove(place.file);
        Client client = new Client(place.name, place.file, place.of, place.of != null ? Client.Told.DEPENDS : Client.Told.AT_HAND, path);
        if (place.of != null) {
            client.lacking.addAll(packages.lacking(place.of));
        }
        return client;
    }

    private Client ofTree(Place place, MavenTree tree, List<Path> libraries) {
        List<Path> path = new ArrayList<>();
        Client client = new Client(place.name, place.file, place.of, Client.Told.TREE, path);
        for (MavenTree.Artifact each : tree.needs) {
            Path file = each.in(repository());
            Path here = Files.exists(file) ? file : pool.stream().filter(other -> other.getFileName().toString().equals(each.fileName())).findFirst().orElse(null);
            if (here != null) {
                path.add(here);
            } else {
                client.lacking.add(each.toString());
            }
        }
        path.addAll(libraries);
        return client;
    }

    private Path repository() {
        return request.repository != null ? request.repository : Paths.get(System.getProperty("user.home", ""), ".m2", "repository");
    }

    /** Says which trees are of no client. */
    void sayUnused() {
        for (MavenTree tree : trees) {
            if (clients.stream().noneMatch(client -> tree.isOf(client.file))) {
                host.say("no client has the name of " + tree.root + ", whose tree was given: " + tree.root.fileName());
            }
        }
    }
}
