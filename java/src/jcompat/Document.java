package jcompat;

import java.io.IOException;
import java.nio.file.Path;
import java.util.ArrayList;
import java.util.LinkedHashMap;
import java.util.List;
import java.util.Locale;
import java.util.Map;
import java.util.TreeSet;
import java.util.stream.Collectors;

/** The machine form of what was found: one document, which docs/check-jars.schema.json describes. */
final class Document {
    static final String FORMAT = "jcompat check-jars";
    /** Grows where a key is taken away or means something else; a new key leaves it. */
    static final int VERSION = 1;

    private final Outcome outcome;

    Document(Outcome outcome) {
        this.outcome = outcome;
    }

    Map<String, Object> map() throws IOException {
        Map<String, Object> map = new LinkedHashMap<>();
        map.put("format", FORMAT);
        map.put("version", VERSION);
        map.put("status", outcome.status);
        map.put("tool", System.getProperty("jcompat.version"));
        map.put("old", release(0, outcome.oldJavas));
        map.put("new", release(1, outcome.newJavas));
        map.put("with", outcome.request.with.stream().map(Object::toString).collect(Collectors.toList()));
        map.put("libraries", libraries());
        map.put("jdk", outcome.jdk.version);
        map.put("needs", outcome.needs);
        map.put("due", outcome.due == null ? null : outcome.due.map());
        List<Object> comparisons = new ArrayList<>();
        for (Comparison each : outcome.comparisons) {
            comparisons.add(comparison(each));
        }
        map.put("comparisons", comparisons);
        return map;
    }

    private List<Object> libraries() throws IOException {
        List<Object> libraries = new ArrayList<>();
        for (Path each : outcome.request.with) {
            Map<String, Object> map = new LinkedHashMap<>();
            map.put("name", each.toString());
            map.put("sha256", Digest.of(each));
            libraries.add(map);
        }
        return libraries;
    }

    private Map<String, Object> release(int index, Javas javas) throws IOException {
        Map<String, Object> map = new LinkedHashMap<>();
        map.put("name", outcome.request.releases.get(index).toString());
        map.put("sha256", Digest.of(outcome.request.releases.get(index)));
        map.put("version", outcome.version(index));
        map.put("classes", outcome.world.releases.get(index).paths.size());
        map.put("java", javas.newest);
        map.put("previews", new ArrayList<>(javas.previews));
        map.put("module", outcome.world.releases.get(index).module != null);
        return map;
    }

    private Map<String, Object> comparison(Comparison comparison) throws IOException {
        Map<String, Object> map = new LinkedHashMap<>();
        Report report = comparison.report;
        map.put("clients", comparison.name());
        map.put("verdict", report.verdict.replaceFirst(":.*", ""));
        map.put("status", comparison.status);
        map.put("whole", comparison.isWhole);
        map.put("counts", counts(comparison));
        Words words = new Words(comparison.oldRelease, comparison.newRelease);
        List<Object> lines = new ArrayList<>();
        for (Line line : report.all()) {
            lines.add(line(line, comparison, words));
        }
        map.put("lines", lines);
        map.put("notes", report.notes.stream().map(Document::note).collect(Collectors.toList()));
        map.put("missing", new ArrayList<>(report.notes.stream().filter(note -> !note.isConstant)
                .flatMap(note -> (note.side.equals("old") ? comparison.oldRelease : comparison.newRelease).missingAbove(note.type).stream())
                .collect(Collectors.toCollection(TreeSet::new))));
        map.put("added", comparison.additions == null ? null : comparison.additions.all.stream().map(added -> added(added, comparison)).collect(Collectors.toList()));
        return map;
    }

    private static Map<String, Object> added(Added added, Comparison comparison) {
        Map<String, Object> map = new LinkedHashMap<>();
        map.put("kind", added.kind.name().toLowerCase(Locale.ROOT));
        map.put("class", added.type);
        map.put("member", added.member);
        map.put("text", added.text());
        map.put("words", added.words(comparison.newRelease));
        map.put("folded", added.folded);
        return map;
    }

    private static Map<String, Object> counts(Comparison comparison) {
        Map<String, Object> map = new LinkedHashMap<>();
        List<Line> lines = comparison.report.all();
        map.put("findings", count(lines, "finding"));
        map.put("collisions", count(lines, "collision"));
        map.put("warnings", comparison.options.contains("--warn") ? count(lines, "warning") : null);
        map.put("dropped", comparison.options.contains("--dropped") ? count(lines, "dropped") : null);
        map.put("calls", comparison.options.contains("--calls") ? count(lines, Line.CALL) : null);
        map.put("notes", comparison.report.notes.size());
        map.put("accepted", comparison.accepted.size());
        map.put("left", count(comparison.left, "finding"));
        return map;
    }

    private static long count(List<Line> lines, String kind) {
        return lines.stream().filter(line -> line.kind().equals(kind)).count();
    }

    private Map<String, Object> line(Line line, Comparison comparison, Words words) throws IOException {
        Map<String, Object> map = new LinkedHashMap<>();
        boolean isNumbered = !line.isFurther();
        map.put("number", isNumbered ? line.number : null);
        map.put("kind", line.kind());
        map.put("rule", isNumbered ? line.rule : null);
        map.put("class", line.type);
        map.put("member", line.kind().equals("dropped") ? null : given(line.member));
        map.put("interface", line.kind().equals("dropped") ? line.member : null);
        map.put("act", given(line.act));
        map.put("seat", given(line.seat));
        map.put("error", given(line.error));
        map.put("text", line.text);
        List<String> said = words.safely(line);
        map.put("words", said.get(0));
        map.put("client", said.get(1));
        Line top = comparison.folding.top(line);
        map.put("into", top == line ? null : top.text);
        map.put("made", line.isMade());
        map.put("accepted", comparison.accepted.contains(line));
        Sources.Place place = outcome.sources.of(line, comparison);
        map.put("source", place == null ? null : place.map());
        return map;
    }

    private static String given(String word) {
        return word.equals("-") ? null : word;
    }

    private static Map<String, Object> note(Note note) {
        Map<String, Object> map = new LinkedHashMap<>();
        map.put("kind", note.isConstant ? "constant" : "unloadable");
        map.put("side", note.side);
        map.put("class", note.type);
        map.put("member", note.isConstant ? note.detail : null);
        map.put("error", note.isConstant ? null : note.detail);
        return map;
    }
}
