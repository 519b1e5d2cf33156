package jcompat;

import java.nio.file.Path;
import java.util.ArrayList;
import java.util.List;
import java.util.regex.Matcher;
import java.util.regex.Pattern;

/** What one artifact needs, as <code>mvn dependency:tree</code> prints it. */
final class MavenTree {
    /** As <code>[INFO] |  +- org.example:shapes:jar:1.0:compile</code>; a classifier may stand before the version, remarks behind all. */
    private static final Pattern LINE = Pattern.compile("(?:\\[INFO\\] )?((?:[|+\\\\ ][ -] )*)([^\\s:]+):([^\\s:]+):([^\\s:]+)((?::[^\\s:]+){1,3})(?: \\(.*)?");
    private static final String SCOPES = "compile|provided|runtime|system|import|test";

    /** One artifact: where a repository has its file, and the name of that. */
    static final class Artifact {
        final String group;
        final String name;
        final String version;
        private final String classifier;

        Artifact(String group, String name, String classifier, String version) {
            this.group = group;
            this.name = name;
            this.classifier = classifier;
            this.version = version;
        }

        /** As <code>shapes-1.0.jar</code>. */
        String fileName() {
            return name + "-" + version + (classifier == null ? "" : "-" + classifier) + ".jar";
        }

        /** In a repository, as the one of a user. */
        Path in(Path repository) {
            return repository.resolve(group.replace('.', '/')).resolve(name).resolve(version).resolve(fileName());
        }

        @Override
        public String toString() {
            return group + ":" + name + ":" + version;
        }
    }

    final Artifact root;
    /** Without those that only its tests need. */
    final List<Artifact> needs = new ArrayList<>();

    private MavenTree(Artifact root) {
        this.root = root;
    }

    /** The trees in what Maven printed, of each module one; other lines are passed over. */
    static List<MavenTree> read(String text) {
        List<MavenTree> trees = new ArrayList<>();
        for (String line : text.split("\r?\n")) {
            Matcher parts = LINE.matcher(line);
            if (parts.matches()) {
                add(parts, trees);
            }
        }
        return trees;
    }

    private static void add(Matcher parts, List<MavenTree> trees) {
        boolean isRoot = parts.group(1).isEmpty();
        String[] rest = parts.group(5).substring(1).split(":");
        // a root has no scope, and what it needs has one
        int count = isRoot ? rest.length : rest.length - 1;
        if (count < 1 || count > 2 || !isRoot && (trees.isEmpty() || !rest[count].matches(SCOPES))) {
            return;
        }
        Artifact artifact = new Artifact(parts.group(2), parts.group(3), count == 2 ? rest[0] : null, rest[count - 1]);
        if (isRoot) {
            trees.add(new MavenTree(artifact));
        } else if (!rest[count].equals("test")) {
            trees.get(trees.size() - 1).needs.add(artifact);
        }
    }

    /** Whether the file is the root's, by its name: with the version or without. */
    boolean isOf(Path file) {
        String name = file.getFileName().toString();
        return name.equals(root.fileName()) || name.equals(root.name + ".jar") || name.equals(root.name);
    }
}
