package jcompat;

import java.nio.file.Path;
import java.util.ArrayList;
import java.util.List;

/** What is asked for: the words of the command line, or the parameters of a build's plugin. */
public final class Request {
    /** Two releases, or those of a row, the oldest first: jars or folders. */
    public final List<Path> releases = new ArrayList<>();
    /** Other libraries that they need. */
    public final List<Path> with = new ArrayList<>();
    /** Patterns of paths of class files that are left out. */
    public final List<String> without = new ArrayList<>();
    public boolean row;
    public boolean warn = true;
    public boolean dropped = true;
    public boolean calls = true;
    /** Which clients are asked about where a release has a module's file: those that have all on the class path, modules, or both. */
    public enum Views { ALL, CLASS_PATH, MODULES }

    public Views views = Views.ALL;
    /** One document of JSON in place of lines. */
    public boolean json;
    /** The Java that the new release has to run on, as 17; 0 for any. */
    public int java;
    public boolean whole;
    public boolean strict;
    /** Which lines are explained: none, the first of each kind, or all. */
    public enum Explain { NONE, FIRST, ALL }

    public Explain explain = Explain.FIRST;
    /** Whether it is said which version number is due. */
    public boolean due;
    /** Whether what was added is listed. */
    public boolean added;
    /** A file of SARIF is written there, unless it is null. */
    public Path sarif;
    /** Folders or jars of the new release's sources. */
    public final List<Path> sources = new ArrayList<>();
    /** The versions, or null where those in the names count. */
    public String from;
    public String to;
    /** The file of accepted breaks, or null. */
    public Path accepted;
    /** Where the program's own report is kept, or null. */
    public Path report;
    /** A page is written to this file, unless it is null. */
    public Path page;
    /** The title of the page. */
    public String title = "Binary compatibility";
    /** Options of the program. */
    public final List<String> options = new ArrayList<>();
    /** The JDK whose classes are the platform; null for the one that runs this. */
    public Path jdk;
    /** The cache; null for that of the user. */
    public Path cache;
    /** The program; null for the one that this library has, or that is on the path. */
    public Path program;
    /** Whether the program is given those classes of the JDK alone that the releases and libraries name, and what is above these. */
    public boolean needed;

    /** The value of an option of the program, or null. */
    String value(String option) {
        String value = null;
        for (int i = 0; i < options.size(); i++) {
            String each = options.get(i);
            value = each.startsWith(option + "=") ? each.substring(option.length() + 1) : each.equals(option) && i + 1 < options.size() ? options.get(i + 1) : value;
        }
        return value;
    }

    /** Whether an option of the program is given, alone or with its value. */
    boolean has(String option) {
        return options.stream().anyMatch(given -> given.equals(option) || given.startsWith(option + "="));
    }
}
