package jcompat;

import java.util.ArrayList;
import java.util.LinkedHashMap;
import java.util.LinkedHashSet;
import java.util.List;
import java.util.Locale;
import java.util.Map;
import java.util.Set;

import jcompat.SemanticVersion.Step;

/** Which version number is due by Semantic Versioning, and why; what the gate <code>version</code> asks for, which knows findings and collisions alone. */
final class Due {
    private static final String FURTHER = "warning, dropped interface or line on calls";
    private static final String SEVERAL_FURTHER = "warnings, dropped interfaces or lines on calls";

    private final SemanticVersion from;
    private final String fromText;
    private final SemanticVersion to;
    private final String toText;
    private final Map<Step, List<String>> reasons = new LinkedHashMap<>();
    private final boolean isStrict;
    private long findings;
    private long collisions;
    private long further;
    private boolean isWhole = true;

    /** The versions are null where they aren't known. */
    Due(String fromText, String toText, List<Comparison> comparisons, boolean isStrict) throws Stop {
        this.fromText = fromText;
        this.toText = toText;
        this.isStrict = isStrict;
        from = SemanticVersion.of(fromText);
        to = SemanticVersion.of(toText);
        if (fromText != null && from == null) {
            throw new Stop(fromText + ", the version of the old release, is none as 1.2.3");
        }
        count(comparisons);
    }

    private void count(List<Comparison> comparisons) {
        Set<String> constants = new LinkedHashSet<>();
        Set<String> added = new LinkedHashSet<>();
        Set<String> deprecated = new LinkedHashSet<>();
        Map<String, Line> lines = new LinkedHashMap<>();
        for (Comparison each : comparisons) {
            each.report.all().forEach(line -> lines.put(line.text, line));
            each.report.notes.stream().filter(note -> note.isConstant).forEach(note -> constants.add(note.type + " " + note.detail));
            each.additions.all.forEach(one -> (one.kind == Added.Kind.DEPRECATED ? deprecated : added).add(one.text().replaceFirst("\\w+ ", "")));
            isWhole &= each.isWhole;
        }
        findings = lines.values().stream().filter(Line::isFinding).count();
        further = lines.values().stream().filter(Line::isFurther).count();
        collisions = lines.size() - findings - further;
        add(Step.MAJOR, findings, "finding", lines.values().stream().filter(Line::isFinding).map(line -> line.text).findFirst().orElse(""));
        if (isStrict) {
            add(Step.MAJOR, further, FURTHER, lines.values().stream().filter(Line::isFurther).map(line -> line.text).findFirst().orElse(""));
        }
        add(Step.MINOR, collisions, "collision", lines.values().stream().filter(line -> line.kind().equals("collision")).map(line -> line.text).findFirst().orElse(""));
        add(Step.MINOR, added.size(), "addition", first(added));
        add(Step.MINOR, constants.size(), "changed constant", first(constants));
        add(Step.MINOR, deprecated.size(), "deprecation", first(deprecated));
    }

    private static String first(Set<String> texts) {
        return texts.isEmpty() ? "" : texts.iterator().next();
    }

    private void add(Step step, long count, String what, String first) {
        if (count > 0) {
            String several = what.equals(FURTHER) ? SEVERAL_FURTHER : what + "s";
            reasons.computeIfAbsent(step, any -> new ArrayList<>()).add(count + " " + (count == 1 ? what : several) + ", as " + first);
        }
    }

    Step step() {
        return reasons.containsKey(Step.MAJOR) ? Step.MAJOR : reasons.containsKey(Step.MINOR) ? Step.MINOR : Step.PATCH;
    }

    /** What the gate asks for. */
    private Step gate() {
        return findings > 0 ? Step.MAJOR : collisions > 0 ? Step.MINOR : Step.PATCH;
    }

    private static String name(Step step) {
        return step.name().toLowerCase(Locale.ROOT);
    }

    /** The number, or the step where the version of the old release isn't known. */
    private String number(Step step) {
        return from == null ? "a " + name(step) + " step" : from.next(step);
    }

    /** Lines, of which the first says what is due. */
    List<String> lines() {
        List<String> lines = new ArrayList<>();
        Step step = step();
        List<String> why = reasons.getOrDefault(step, List.of("nothing that asks for more"));
        lines.add("due: " + number(step) + (from == null ? "" : ", a " + name(step) + " step from " + fromText) + (isWhole ? "" : " at least, since not all was compared") + ": "
                + String.join("; ", why));
        if (gate() != step) {
            lines.add("    the gate version asks for " + number(gate()) + ": it is proved, and looks at findings and collisions alone; the rest is tested, not proved");
        }
        if (!isStrict && further > 0 && step != Step.MAJOR) {
            lines.add("    with --strict it is " + number(Step.MAJOR) + ": " + further + " " + SEVERAL_FURTHER);
        }
        if (from != null && to != null) {
            boolean isEnough = from.to(to).compareTo(step) >= 0;
            lines.add("    " + toText + ", the version of the new release, is " + (isEnough ? "large enough" : "too small"));
        }
        return lines;
    }

    /** For the document. */
    Map<String, Object> map() {
        Map<String, Object> map = new LinkedHashMap<>();
        map.put("step", name(step()));
        map.put("number", from == null ? null : from.next(step()));
        map.put("gate_step", name(gate()));
        map.put("gate_number", from == null ? null : from.next(gate()));
        map.put("strict", isStrict);
        map.put("whole", isWhole);
        map.put("reasons", reasons.getOrDefault(step(), List.of()));
        return map;
    }
}
