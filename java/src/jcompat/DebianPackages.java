package jcompat;

import java.nio.file.Path;
import java.util.ArrayList;
import java.util.LinkedHashMap;
import java.util.LinkedHashSet;
import java.util.List;
import java.util.Map;
import java.util.Objects;
import java.util.Set;
import java.util.TreeSet;

/** The Debian packages at hand, and which of them each needs. */
final class DebianPackages {
    private final Map<String, DebianPackage> byName = new LinkedHashMap<>();

    void add(DebianPackage one) {
        byName.putIfAbsent(one.name, one);
        one.provides.forEach(name -> byName.putIfAbsent(name, one));
    }

    /** The package itself, then what it depends on, the nearest first; of several that would do, the first that is at hand. */
    private Set<DebianPackage> all(DebianPackage of) {
        Set<DebianPackage> found = new LinkedHashSet<>(List.of(of));
        List<DebianPackage> todo = new ArrayList<>(found);
        for (int i = 0; i < todo.size(); i++) {
            for (List<String> one : todo.get(i).depends) {
                one.stream().map(byName::get).filter(Objects::nonNull).findFirst().filter(found::add).ifPresent(todo::add);
            }
        }
        return found;
    }

    /** Its jars, then those of what it depends on. */
    List<Path> classPath(DebianPackage of) {
        List<Path> jars = new ArrayList<>();
        all(of).forEach(each -> jars.addAll(each.jars));
        return jars;
    }

    /** The libraries that it, or what it depends on, asks for and that aren't at hand. By Debian's policy on Java they are named <code>lib..-java</code>. */
    Set<String> lacking(DebianPackage of) {
        Set<String> lacking = new TreeSet<>();
        for (DebianPackage each : all(of)) {
            each.depends.stream().filter(one -> one.stream().noneMatch(byName::containsKey) && one.stream().anyMatch(name -> name.matches("lib.*-java")))
                    .forEach(one -> lacking.add(one.get(0)));
        }
        return lacking;
    }
}
