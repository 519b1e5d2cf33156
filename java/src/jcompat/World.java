package jcompat;

import java.io.IOException;
import java.nio.file.Files;
import java.nio.file.Path;
import java.util.ArrayList;
import java.util.HashSet;
import java.util.List;
import java.util.Map;
import java.util.Set;
import java.util.TreeSet;
import java.util.regex.Pattern;

/** The folders that the program is given: the platform, with libraries beside the JDK's classes, and the releases. */
final class World {
    final List<Taken> releases = new ArrayList<>();
    private final List<Taken> libraries = new ArrayList<>();
    private final Request request;
    private final Host host;
    private final Path work;
    private final int java;
    Path platform;

    World(Request request, Host host, Path work, int java) {
        this.request = request;
        this.host = host;
        this.work = work;
        this.java = java;
    }

    /** Unpacks what is asked for. */
    void unpack() throws IOException, Stop {
        for (Path release : request.releases) {
            Taken taken = new Taken(release, work.resolve("release" + (releases.size() + 1)), java, host);
            if (taken.paths.isEmpty()) {
                throw new Stop(release + " has no class file, so there is nothing to compare" + Hints.ofNothing(release));
            }
            taken.sayNewer(host);
            releases.add(taken);
        }
        for (Path library : request.with) {
            add(library);
        }
        for (Taken release : releases) {
            for (Path jar : release.jars) {
                add(jar);
            }
        }
        for (String pattern : request.without) {
            leaveOut(pattern);
        }
    }

    private void add(Path library) throws IOException, Stop {
        Taken taken = new Taken(library, work.resolve("library" + (libraries.size() + 1)), java, host);
        if (taken.paths.isEmpty()) {
            host.say(library + " has no class file");
        }
        libraries.add(taken);
    }

    /** A star stands for any text, also with slashes in it, and a question mark for one character, as for the shell's find -path. */
    private void leaveOut(String pattern) throws IOException, Stop {
        Pattern shape = Pattern.compile("\\Q" + pattern.replace("\\E", "").replace("*", "\\E.*\\Q").replace("?", "\\E.\\Q") + "\\E");
        int count = 0;
        List<Taken> all = new ArrayList<>(releases);
        all.addAll(libraries);
        for (Taken taken : all) {
            Set<String> matching = new TreeSet<>(taken.paths);
            matching.removeIf(path -> !shape.matcher(path).matches());
            count += taken.leaveOut(matching).size();
        }
        host.say("--without '" + pattern + "' leaves out " + count + " class files");
        for (Taken release : releases) {
            if (release.paths.isEmpty()) {
                throw new Stop("--without leaves nothing to compare");
            }
        }
    }

    /** Takes out of the releases what the JDK has, and puts the platform together. */
    void put(Workspace shared) throws IOException, Stop {
        JdkClasses single = request.needed ? new JdkClasses(shared.jdk) : null;
        Platform whole = request.needed ? null : shared.platform(host);
        for (int i = 0; i < releases.size(); i++) {
            Taken release = releases.get(i);
            Set<String> both = release.leaveOut(whole != null ? whole.paths : single.among(release.paths));
            if (!both.isEmpty()) {
                host.say(leftOut(both) + " of " + sideName(i) + " left out: the JDK has the same, and a JVM takes the JDK's");
            }
            if (release.paths.isEmpty()) {
                throw new Stop("the JDK has all classes of " + sideName(i) + ", so there is nothing to compare");
            }
        }
        Path all = work.resolve("libraries");
        Set<String> put = putLibraries(all);
        if (whole != null) {
            platform = put.isEmpty() ? whole.folder : whole.with(all, work);
            return;
        }
        platform = Files.createDirectories(all);
        for (String path : single.among(put)) {
            Files.delete(all.resolve(path));
            put.remove(path);
        }
        putNeeded(single, put);
    }

    /** Puts the class files of libraries into one folder: of two libraries that of the one that is named first, of a release and a library the release's. */
    private Set<String> putLibraries(Path all) throws IOException {
        Set<String> put = new TreeSet<>();
        for (Taken library : libraries) {
            library.paths.removeAll(put);
            Folders.link(library.folder, library.paths, all);
            put.addAll(library.paths);
        }
        for (int i = 0; i < releases.size(); i++) {
            Set<String> both = new TreeSet<>(put);
            both.retainAll(releases.get(i).paths);
            for (String path : both) {
                Files.delete(all.resolve(path));
            }
            put.removeAll(both);
            if (!both.isEmpty()) {
                host.say(leftOut(both) + " of the libraries left out: " + sideName(i) + " has the same");
            }
        }
        return put;
    }

    private void putNeeded(JdkClasses jdk, Set<String> libraryPaths) throws IOException {
        Set<String> names = new HashSet<>();
        Set<String> there = new HashSet<>(libraryPaths);
        for (String path : libraryPaths) {
            names.addAll(Mentions.declared(Files.readAllBytes(platform.resolve(path))));
        }
        for (Taken release : releases) {
            for (String path : release.paths) {
                names.addAll(Mentions.declared(Files.readAllBytes(release.folder.resolve(path))));
            }
        }
        Folders.Maker maker = new Folders.Maker();
        for (Map.Entry<String, byte[]> each : new Closure(jdk, new Lowered()).of(names, there).entrySet()) {
            maker.put(platform.resolve(each.getKey()), each.getValue());
        }
    }

    private static String leftOut(Set<String> paths) {
        String first = paths.iterator().next();
        first = first.substring(0, first.length() - Names.CLASS.length());
        return paths.size() == 1 ? "the class " + first : paths.size() + " classes (as " + first + ")";
    }

    String sideName(int index) {
        return request.row ? "release " + (index + 1) : index == 0 ? "the old release" : "the new release";
    }

    /** Whether a release has a module's file. */
    boolean hasModules() {
        return releases.stream().anyMatch(release -> release.module != null);
    }

    /** Puts the modules' files to their places. */
    void putModules() throws IOException {
        List<String> modules = new ArrayList<>();
        for (int i = 0; i < releases.size(); i++) {
            Taken release = releases.get(i);
            if (release.module != null) {
                Files.write(release.folder.resolve(Names.MODULE), release.module);
                modules.add(sideName(i));
            }
        }
        if (!modules.isEmpty()) {
            host.say("--modular: " + String.join(" and ", modules) + " compared as a module, by its module-info.class, for clients on the class path");
        }
    }
}
