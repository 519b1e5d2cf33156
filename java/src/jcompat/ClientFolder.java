package jcompat;

import java.io.IOException;
import java.nio.file.Files;
import java.nio.file.Path;
import java.util.ArrayDeque;
import java.util.ArrayList;
import java.util.Deque;
import java.util.HashSet;
import java.util.List;
import java.util.Set;
import java.util.TreeSet;
import java.util.stream.Collectors;

/**
 * Puts a client into a folder, as a world of its own: its class files, but for those in packages of the releases and of the platform, which no client may have,
 * and beside them those of its class path that they name, with all above these.
 */
final class ClientFolder {
    private final World world;
    private final JdkClasses jdk;
    private final int java;
    private final Shelf shelf;
    /** The paths of both releases, and those of the old one alone. */
    private final Set<String> released = new HashSet<>();
    private final Set<String> old;
    /** The packages of both releases, and those of other libraries that are part of the platform, whose paths are here too. */
    private final Set<String> packages;
    private final Set<String> libraryPaths;
    private final Set<String> libraryPackages;
    private final Lowered lowered = new Lowered();

    ClientFolder(World world, Set<String> libraryPaths, JdkClasses jdk, int java, Shelf shelf) {
        this.world = world;
        this.libraryPaths = libraryPaths;
        this.jdk = jdk;
        this.java = java;
        this.shelf = shelf;
        old = world.releases.get(0).paths;
        world.releases.forEach(release -> released.addAll(release.paths));
        packages = packages(released);
        libraryPackages = packages(libraryPaths);
    }

    private static Set<String> packages(Set<String> paths) {
        return paths.stream().map(Names::packageOf).collect(Collectors.toSet());
    }

    private boolean isOfPlatform(String path) {
        return libraryPaths.contains(path) || jdk.has(path);
    }

    private boolean isPlatformPackage(String name) {
        return libraryPackages.contains(name) || jdk.hasPackage(name);
    }

    /** Puts it there. Whether a class of the old release is among those that it names, or above these, since else it loses nothing; or whether all of it is left out. */
    boolean put(Client client, Path folder) throws IOException {
        Taken taken;
        try {
            taken = new Taken(client.file, folder, java, new Host(null, any -> { }));
        } catch (Stop unreadable) {
            client.refusal = unreadable.getMessage();
            return true;
        }
        leaveOut(client, taken);
        Set<String> names = new TreeSet<>();
        for (String path : taken.paths) {
            client.own.add(Names.ofPath(path));
            read(client, folder.resolve(path), names);
        }
        List<Path> classPath = new ArrayList<>(taken.jars);
        classPath.addAll(client.classPath);
        boolean isReached = putLibraries(client, names, taken.paths, classPath, folder);
        return isReached || client.own.isEmpty() && client.leftOut() > 0;
    }

    private void read(Client client, Path file, Set<String> names) throws IOException {
        try {
            ClassFile read = new ClassFile(Files.readAllBytes(file));
            names.addAll(Mentions.all(read));
            Mentions.uses(read).stream().filter(use -> isOld(use.replaceFirst(" .*", ""))).forEach(client.uses::add);
        } catch (RuntimeException malformed) {
            // the program refuses it, and then it is left out
        }
    }

    private boolean isOld(String name) {
        return old.contains(Names.path(name));
    }

    private void leaveOut(Client client, Taken taken) throws IOException {
        client.ofReleases = taken.leaveOut(taken.paths.stream().filter(path -> packages.contains(Names.packageOf(path))).collect(Collectors.toSet())).size();
        client.ofPlatform = taken.leaveOut(taken.paths.stream().filter(path -> isPlatformPackage(Names.packageOf(path))).collect(Collectors.toSet())).size();
    }

    /** Whether one of the classes is of the old release. */
    private boolean putLibraries(Client client, Set<String> names, Set<String> own, List<Path> classPath, Path folder) throws IOException {
        Folders.Maker maker = new Folders.Maker();
        Set<String> seen = new HashSet<>(names);
        Deque<String> todo = new ArrayDeque<>(names);
        boolean isReached = false;
        while (!todo.isEmpty()) {
            String name = todo.poll();
            String path = Names.path(name);
            isReached |= old.contains(path);
            if (own.contains(path) || released.contains(path) || isOfPlatform(path)) {
                continue;
            }
            Path library = packages.contains(Names.packageOf(path)) || isPlatformPackage(Names.packageOf(path)) ? null : shelf.first(path, classPath);
            if (library == null) {
                client.missing.add(name);
                continue;
            }
            client.libraries.add(library);
            byte[] bytes = shelf.bytes(path, library);
            maker.put(folder.resolve(path), lowered.lower(bytes));
            above(bytes).stream().filter(seen::add).forEach(todo::add);
        }
        return isReached;
    }

    private static List<String> above(byte[] bytes) {
        try {
            return new ClassFile(bytes).above();
        } catch (RuntimeException malformed) {
            return List.of();
        }
    }
}
