package jcompat;

import java.io.IOException;
import java.util.ArrayList;
import java.util.Comparator;
import java.util.LinkedHashMap;
import java.util.List;
import java.util.Map;
import java.util.TreeMap;
import java.util.stream.Collectors;

/** What is most of a long report: how many lines each rule has, those that break the most clients first, and the classes with the most lines. */
final class Most {
    private static final int CLASSES = 5;

    private Most() {
    }

    /** Of the lines that aren't folded. */
    static List<String> of(Map<Line, List<Line>> below) throws IOException {
        Meanings meanings = new Meanings(Page.resource("FINDINGS.md"));
        List<String> said = new ArrayList<>();
        Map<String, List<Line>> rules = new LinkedHashMap<>();
        // H1 breaks every client that names the class; the rules come in the order of their numbers
        below.keySet().forEach(line -> rules.computeIfAbsent(line.rule, any -> new ArrayList<>()).add(line));
        rules.forEach((rule, lines) -> said.add(String.format("%6d %s: %s, as %s", lines.size(), rule, meanings.heading(rule), place(lines.get(0)))));
        Map<String, List<Line>> classes = below.keySet().stream().filter(line -> !line.isFurther())
                .collect(Collectors.groupingBy(line -> line.type, TreeMap::new, Collectors.toList()));
        List<String> names = new ArrayList<>(classes.keySet());
        names.sort(Comparator.comparing(name -> -classes.get(name).size()));
        if (!names.isEmpty() && classes.get(names.get(0)).size() > 1) {
            said.add("       most lines have: " + names.stream().limit(CLASSES).map(name -> name + " (" + Printed.counts(classes.get(name)) + ")").collect(Collectors.joining(", ")));
        }
        return said;
    }

    private static String place(Line line) {
        return line.type + (line.member.equals("-") ? "" : " " + line.member);
    }
}
