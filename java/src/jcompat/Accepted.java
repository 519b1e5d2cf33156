package jcompat;

import java.io.IOException;
import java.nio.charset.StandardCharsets;
import java.nio.file.Files;
import java.nio.file.Path;
import java.util.ArrayList;
import java.util.LinkedHashMap;
import java.util.LinkedHashSet;
import java.util.List;
import java.util.Map;
import java.util.Set;
import java.util.stream.Collectors;

/** A file of lines of a report that are accepted. */
final class Accepted {
    private final List<String> texts = new ArrayList<>();
    private final List<Integer> places = new ArrayList<>();
    private final Host host;
    private final Map<String, Line> seen = new LinkedHashMap<>();
    private boolean[] used;

    Accepted(Path file, Host host) throws IOException {
        this.host = host;
        int number = 0;
        for (String line : new String(Files.readAllBytes(file), StandardCharsets.UTF_8).split("\r?\n")) {
            number++;
            // a line of the report is taken as it is printed too, with its number, and with what is folded into it
            String text = line.replaceFirst("(^|\\s)\\s*#.*", "").trim().replaceFirst("^\\d+ ", "").replaceFirst(" \\(and [^()]*\\)$", "");
            if (!text.isEmpty()) {
                texts.add(text);
                places.add(number);
            }
        }
        used = new boolean[texts.size()];
    }

    /** Which lines of the report are accepted, with those that are folded into one. */
    Set<Line> of(List<Line> lines, Folding folding) {
        Set<Line> taken = new LinkedHashSet<>();
        for (Line line : lines) {
            seen.putIfAbsent(line.text, line);
            for (int i = 0; i < used.length; i++) {
                if (accepts(texts.get(i), line.text)) {
                    used[i] = true;
                    taken.add(line);
                }
            }
        }
        lines.stream().filter(line -> taken.contains(folding.top(line))).forEach(taken::add);
        return taken;
    }

    /** Says which entries accepted nothing, and which line is nearest to each. */
    void sayUnused() {
        for (int i = 0; i < used.length; i++) {
            if (!used[i]) {
                Line nearest = Nearest.of(texts.get(i), seen.values());
                host.say("line " + places.get(i) + " of the accepted breaks accepts nothing: " + texts.get(i) + (nearest == null ? ""
                        : "; nearest is " + nearest + (nearest.text.startsWith(texts.get(i)) ? ", which it accepts with a * at its end" : "")));
            }
        }
    }

    /** Says what is accepted, and how many lines aren't. */
    void say(Comparison comparison) {
        Set<Line> taken = comparison.accepted;
        List<String> said = taken.stream().filter(Line::isFurther).map(line -> line.text).collect(Collectors.toList());
        List<Integer> numbers = taken.stream().filter(line -> !line.isFurther()).map(line -> line.number).sorted().collect(Collectors.toList());
        if (!numbers.isEmpty()) {
            said.add(0, ranges(numbers));
        }
        host.say(said.isEmpty() ? "nothing is accepted" : "accepted: " + String.join(", ", said));
        sayLeft(comparison.left, !taken.isEmpty(), comparison.options);
        if (!taken.isEmpty()) {
            host.say(Verdict.of(comparison));
        }
    }

    private static boolean accepts(String entry, String text) {
        return entry.endsWith("*") ? text.startsWith(entry.substring(0, entry.length() - 1)) : text.equals(entry);
    }

    /** As <code>2, 5 to 9</code>. */
    private static String ranges(List<Integer> numbers) {
        List<String> texts = new ArrayList<>();
        for (int from = 0, to; from < numbers.size(); from = to) {
            to = from + 1;
            while (to < numbers.size() && numbers.get(to) == numbers.get(to - 1) + 1) {
                to++;
            }
            texts.add(to == from + 1 ? "" + numbers.get(from) : numbers.get(from) + " to " + numbers.get(to - 1));
        }
        return String.join(", ", texts);
    }

    private void sayLeft(List<Line> left, boolean accepts, List<String> options) {
        long findings = left.stream().filter(Line::isFinding).count();
        long collisions = left.stream().filter(line -> !line.isFinding() && !line.isFurther()).count();
        String counts = Printed.counts(left, options);
        host.say(findings + " findings and " + collisions + " collisions are left" + (counts.isEmpty() ? "" : ", and " + counts)
                + (accepts ? "; what is promised of compatible releases isn't promised with accepted breaks" : ""));
    }
}
