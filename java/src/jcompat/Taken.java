package jcompat;

import java.io.IOException;
import java.nio.file.Files;
import java.nio.file.InvalidPathException;
import java.nio.file.Path;
import java.util.ArrayList;
import java.util.List;
import java.util.Map;
import java.util.Set;
import java.util.TreeSet;
import java.util.concurrent.ConcurrentHashMap;
import java.util.concurrent.atomic.AtomicLong;
import java.util.regex.Matcher;
import java.util.regex.Pattern;
import java.util.stream.Collectors;

/** The class files of a jar or a folder, taken to a folder of the run, at the places of their names. */
final class Taken {
    private static final Pattern VERSIONED = Pattern.compile("META-INF/versions/(\\d{1,9})/(.*\\.class)");
    /** What the program takes of a class file, and then some, so that a jar for a full disk isn't unpacked. */
    private static final int MOST_BYTES = 4_194_304 + 1;
    private static final long MOST_BYTES_OF_ALL = 8L << 30;

    final Path name;
    final Path folder;
    /** The paths of its class files below the folder. */
    final Set<String> paths = new TreeSet<>();
    /** Jars that an application brings. */
    final List<Path> jars = new ArrayList<>();
    /** The module's file, for the newest Java that the JDK knows, or null. */
    byte[] module;
    /** The minor and major version of each class file, as one number. */
    private final Map<String, Integer> versions = new ConcurrentHashMap<>();
    /** How many class files are for newer versions of Java alone. */
    private int newer;

    Taken(Path name, Path folder, int java, Host host) throws IOException, Stop {
        this.name = name;
        this.folder = folder;
        Files.createDirectories(folder);
        Lowered lowered = new Lowered();
        try (Source source = Source.open(name)) {
            String inside = source.paths.stream().filter(path -> path.matches("(BOOT|WEB)-INF/classes/.*\\.class")).map(path -> path.substring(0, path.indexOf('/') + 1))
                    .sorted().findFirst().orElse("");
            String classes = inside.isEmpty() ? "" : inside + "classes/";
            take(source, source.paths.stream().filter(path -> isClass(path, classes)).map(path -> path.substring(classes.length())).collect(Collectors.toList()),
                    classes, lowered);
            if (inside.isEmpty()) {
                takeModule(source, java, lowered);
            } else {
                sayOutside(source, inside, host);
                takeJars(source, inside + "lib/");
            }
        }
        lowered.say(name.toString(), host);
    }

    private static boolean isClass(String path, String below) {
        return path.endsWith(Names.CLASS) && path.startsWith(below) && !path.startsWith("META-INF/", below.length()) && !path.equals(below + Names.MODULE);
    }

    private void take(Source source, List<String> all, String below, Lowered lowered) throws IOException, Stop {
        Folders.Maker maker = new Folders.Maker();
        AtomicLong total = new AtomicLong();
        try {
            Folders.each(all, path -> {
                // of a file that is refused by its length, so much is kept that it is
                byte[] bytes = source.bytes(below + path, MOST_BYTES);
                if (total.addAndGet(bytes.length) > MOST_BYTES_OF_ALL) {
                    throw new IOException("its class files have more than " + (MOST_BYTES_OF_ALL >> 30) + " GB");
                }
                versions.put(path, Lowered.version(bytes));
                maker.put(folder.resolve(path), lowered.lower(bytes));
            });
        } catch (InvalidPathException unmappable) {
            throw new Stop(unmappable.getInput() + " of " + name + " has a name that isn't of the locale's characters: set LC_ALL to C.UTF-8");
        } catch (IOException failure) {
            throw new Stop(name + " can't be unpacked: " + failure.getMessage());
        }
        paths.addAll(all);
    }

    /** The module's file, of the top or for a version of Java, the newest that is known. */
    private void takeModule(Source source, int java, Lowered lowered) throws IOException {
        int newest = 0;
        String file = source.paths.contains(Names.MODULE) ? Names.MODULE : null;
        for (String path : source.paths) {
            Matcher versioned = VERSIONED.matcher(path);
            if (versioned.matches()) {
                newer++;
                int of = Integer.parseInt(versioned.group(1));
                if (versioned.group(2).equals(Names.MODULE) && of <= java && of > newest) {
                    newest = of;
                    file = path;
                }
            }
        }
        module = file == null ? null : lowered.lower(source.bytes(file, MOST_BYTES));
    }

    private void sayOutside(Source source, String inside, Host host) {
        long outside = source.paths.stream().filter(path -> path.endsWith(Names.CLASS) && !path.startsWith(inside) && !path.startsWith("META-INF/")).count();
        if (outside > 0) {
            host.say(name + ": the classes below " + inside + "classes are compared, and the " + outside + " outside aren't");
        }
    }

    private void takeJars(Source source, String below) throws IOException {
        Path to = folder.resolveSibling(folder.getFileName() + ".jars");
        for (String path : source.paths) {
            if (path.startsWith(below) && path.endsWith(".jar") && path.indexOf('/', below.length()) < 0) {
                Files.createDirectories(to);
                jars.add(Files.write(to.resolve(path.substring(below.length())), source.bytes(path, Integer.MAX_VALUE - 8)));
            }
        }
        jars.sort(null);
    }

    /** Says of a release what isn't compared. */
    void sayNewer(Host host) {
        if (newer > 0) {
            host.say(name + " is a multi-release jar: only the classes outside META-INF/versions are compared, and the " + newer + " inside aren't");
        }
    }

    /** The Java that its class files ask for, but for its module's file and what is left out. */
    Javas javas() {
        return new Javas(paths.stream().map(versions::get).collect(Collectors.toList()));
    }

    /** Removes class files, and returns which of the paths these were. */
    Set<String> leaveOut(Set<String> others) throws IOException {
        Set<String> both = new TreeSet<>(paths);
        both.retainAll(others);
        for (String path : both) {
            Files.delete(folder.resolve(path));
            paths.remove(path);
        }
        return both;
    }
}
