package jcompat;

import java.nio.file.Path;
import java.util.ArrayList;
import java.util.LinkedHashMap;
import java.util.LinkedHashSet;
import java.util.List;
import java.util.Map;
import java.util.Set;
import java.util.TreeSet;

/** A client of two releases: what of it is asked, and what it loses. */
final class Client {
    /** By what its class path is told: its package's Depends, a tree of Maven, or nothing, so that it is what is at hand. */
    enum Told { DEPENDS, TREE, AT_HAND }

    final String name;
    final Path file;
    /** The package that it is in, or null. */
    final DebianPackage of;
    final Told told;
    /** Where it finds other classes, the first place first. */
    final List<Path> classPath;
    /** What should be on its class path and isn't at hand. */
    final Set<String> lacking = new TreeSet<>();

    /** The names of its classes that are asked about. */
    final Set<String> own = new TreeSet<>();
    /** The classes and members of the old release that these name. */
    final Set<String> uses = new TreeSet<>();
    /** How many of its classes are in packages of the releases, and in packages of the platform: no client may have these. */
    int ofReleases;
    int ofPlatform;
    /** The program's lines on its other class files that are left out, since it refuses them. */
    final List<String> refusedFiles = new ArrayList<>();
    /** The jars of its class path that have a class which it needs. */
    final Set<Path> libraries = new LinkedHashSet<>();
    /** The classes that it needs and that are nowhere. */
    final Set<String> missing = new TreeSet<>();

    /** Why nothing is said of it, or null. */
    String refusal;
    /** What its classes lose, by what the program prints of it without the class of the client. */
    private final Map<String, Loss> lost = new LinkedHashMap<>();
    /** The same of classes of its libraries. */
    final List<String> lostByLibraries = new ArrayList<>();

    Client(String name, Path file, DebianPackage of, Told told, List<Path> classPath) {
        this.name = name;
        this.file = file;
        this.of = of;
        this.told = told;
        this.classPath = classPath;
    }

    /** Takes the program's lines on it, without its number. */
    void take(List<String> lines) {
        for (String line : lines) {
            if (line.startsWith("jcompat: ")) {
                refusal = line;
            } else if (line.startsWith("class ") || line.startsWith("item ")) {
                String[] word = line.split(" ");
                if (own.contains(word[1])) {
                    Loss loss = new Loss(word);
                    lost.computeIfAbsent(loss.text(), any -> loss).in.add(word[1]);
                } else {
                    lostByLibraries.add(line);
                }
            }
        }
    }

    List<Loss> lost() {
        return new ArrayList<>(lost.values());
    }

    boolean isAsked() {
        return refusal == null;
    }

    boolean isBroken() {
        return !lost.isEmpty();
    }

    /** Whether all of its classes were asked, and all that they need is there. */
    boolean isWhole() {
        return isAsked() && leftOut() == 0 && missing.isEmpty();
    }

    int leftOut() {
        return ofReleases + ofPlatform + refusedFiles.size();
    }
}
