package jcompat;

import java.io.IOException;
import java.io.PrintStream;
import java.util.ArrayList;
import java.util.Arrays;
import java.util.Comparator;
import java.util.HashSet;
import java.util.LinkedHashMap;
import java.util.List;
import java.util.Map;
import java.util.Set;
import java.util.TreeMap;
import java.util.stream.Collectors;

/** Prints a report for people: what counts first, of a long one what is most of it, then lines by package, folded; notes that are alike as one line. */
final class Printed {
    /** A longer report begins with what is most of it, and ends with its verdict again. */
    private static final int LONG = 25;

    private final Report report;
    private final Folding folding;
    private final Words words;
    private final Request.Explain explain;
    private final PrintStream out;
    /** The kinds of lines that were explained. */
    private final Set<String> explained = new HashSet<>();

    Printed(Report report, Folding folding, Words words, Request.Explain explain, PrintStream out) {
        this.report = report;
        this.folding = folding;
        this.words = words;
        this.explain = explain;
        this.out = out;
    }

    /** Prints the lines of the head, of which the first is the verdict, and the lines that aren't accepted. */
    void print(List<Line> left, List<String> head) throws IOException {
        head.forEach(out::println);
        // the one that a line is folded into is left too: a line is accepted with it
        Map<Line, List<Line>> below = folding.below(left);
        List<Line> tops = below.keySet().stream().filter(line -> !line.isFurther()).collect(Collectors.toList());
        List<Line> further = below.keySet().stream().filter(Line::isFurther).collect(Collectors.toList());
        boolean isLong = below.size() > LONG;
        if (isLong) {
            Most.of(below).forEach(out::println);
        }
        printPackages(tops, below);
        long made = left.stream().filter(Line::isMade).count();
        if (made > 0) {
            out.println(made + " collisions on members with a $ in their name, which compilers make");
        }
        printPackages(further, below);
        printNotes();
        report.others.forEach(out::println);
        if (isLong) {
            out.println(head.get(0));
        }
    }

    /** Those with the most lines first. */
    private void printPackages(List<Line> lines, Map<Line, List<Line>> below) {
        Map<String, List<Line>> packages = lines.stream().collect(Collectors.groupingBy(line -> Names.packageOf(line.type), TreeMap::new, Collectors.toList()));
        List<String> names = new ArrayList<>(packages.keySet());
        names.sort(Comparator.comparing(name -> -packages.get(name).size()));
        for (String name : names) {
            List<Line> here = packages.get(name);
            if (lines.size() > 1) {
                out.println("in " + name + ": " + counts(here));
            }
            here.forEach(line -> print(line, below.get(line)));
        }
    }

    /** As <code>1 H1, 4 H8</code>. */
    static String counts(List<Line> lines) {
        Map<String, Integer> counts = new LinkedHashMap<>();
        lines.forEach(line -> counts.merge(line.rule, 1, Integer::sum));
        return counts.entrySet().stream().map(entry -> entry.getValue() + " " + entry.getKey()).collect(Collectors.joining(", "));
    }

    private void print(Line line, List<Line> all) {
        out.println(line + folding.folded(line, all));
        if (isExplained(() -> words.kind(line))) {
            words.safely(line).stream().filter(text -> !text.isEmpty()).forEach(text -> out.println("    " + text));
        }
    }

    private boolean isExplained(java.util.function.Supplier<String> kind) {
        return explain == Request.Explain.ALL || explain == Request.Explain.FIRST && explained.add(kind.get());
    }

    private void printNotes() {
        for (String side : Arrays.asList("old", "new")) {
            List<Note> lost = report.unloadable(side);
            if (lost.size() == 1) {
                out.println(lost.get(0).text);
            } else if (lost.size() > 1) {
                out.println("note unloadable " + side + ": " + lost.size() + " classes");
            }
        }
        for (Note note : report.notes) {
            if (note.isConstant) {
                out.println(note.text);
                if (isExplained(() -> "note constant")) {
                    out.println("    " + Names.simple(note.type) + "." + Names.member(note.detail)
                            + " has another value: clients keep the old one until they are compiled anew");
                }
            }
        }
    }

    /** How many warnings, dropped interfaces and lines on calls there are among the lines, as far as the options ask for them. */
    static String counts(List<Line> lines, List<String> options) {
        List<String> counts = new ArrayList<>();
        if (options.contains("--warn")) {
            counts.add(lines.stream().filter(line -> line.rule.equals(Line.WARNING)).count() + " warnings");
        }
        if (options.contains("--dropped")) {
            counts.add(lines.stream().filter(line -> line.rule.equals(Line.DROPPED)).count() + " dropped interfaces");
        }
        if (options.contains("--calls")) {
            counts.add(lines.stream().filter(Line::isCall).count() + " lines on calls");
        }
        return String.join(", ", counts);
    }
}
