package jcompat;

import java.nio.file.Path;
import java.util.ArrayList;
import java.util.List;

/** What <code>affected</code> is asked for. */
public final class AffectedRequest {
    /** A jar, a folder or a Debian package, as the other release is. */
    public Path oldRelease;
    public Path newRelease;
    /** Jars, folders of class files, Debian packages, and folders of these. */
    public final List<Path> clients = new ArrayList<>();
    /** Where clients and releases find what else they need: the same kinds of files. */
    public final List<Path> with = new ArrayList<>();
    /** Patterns of paths of class files that are left out of both releases. */
    public final List<String> without = new ArrayList<>();
    /** Files of what <code>mvn dependency:tree</code> printed of clients. */
    public final List<Path> trees = new ArrayList<>();
    /** The repository that has what the trees name; null for that of the user. */
    public Path repository;
    /** One document of JSON in place of lines. */
    public boolean json;
    /** A page is written to this file, unless it is null. */
    public Path page;
    /** Whether a client of which something isn't asked gives a status of its own. */
    public boolean whole;
    /** Whether the program is given those classes of the JDK alone that are named, and what is above these. */
    public boolean needed;
    /** The JDK whose classes are the platform; null for the one that runs this. */
    public Path jdk;
    /** The cache; null for that of the user. */
    public Path cache;
    /** The program; null for the one that this library has, or that is on the path. */
    public Path program;
}
