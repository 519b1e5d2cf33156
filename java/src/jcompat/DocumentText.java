package jcompat;

import java.util.ArrayList;
import java.util.LinkedHashSet;
import java.util.List;
import java.util.Map;
import java.util.Set;

/** A document of check-jars that is read again. A newer version of it is refused; keys that aren't known are passed over. */
final class DocumentText {
    private final Map<?, ?> map;

    private DocumentText(Map<?, ?> map) {
        this.map = map;
    }

    /** Null where the text isn't one. */
    static DocumentText of(String text) throws Stop {
        Object value;
        try {
            value = Json.read(text);
        } catch (IllegalArgumentException other) {
            return null;
        }
        if (!(value instanceof Map) || !Document.FORMAT.equals(((Map<?, ?>) value).get("format"))) {
            return null;
        }
        Object version = ((Map<?, ?>) value).get("version");
        if (!Long.valueOf(Document.VERSION).equals(version)) {
            throw new Stop("the document has the version " + version + " of its form, and this reads " + Document.VERSION);
        }
        return new DocumentText((Map<?, ?>) value);
    }

    List<Map<?, ?>> comparisons() {
        return maps(map, "comparisons");
    }

    static List<Map<?, ?>> maps(Map<?, ?> of, String key) {
        List<Map<?, ?>> maps = new ArrayList<>();
        for (Object each : (List<?>) of.get(key)) {
            maps.add((Map<?, ?>) each);
        }
        return maps;
    }

    static String text(Map<?, ?> of, String key) {
        Object value = of.get(key);
        return value == null ? "-" : value.toString();
    }

    /** The report of each comparison. */
    List<Report> reports() {
        List<Report> reports = new ArrayList<>();
        for (Map<?, ?> comparison : comparisons()) {
            StringBuilder lines = new StringBuilder();
            for (Map<?, ?> line : maps(comparison, "lines")) {
                lines.append(line.get("number") == null ? "" : line.get("number") + " ").append(line.get("text")).append('\n');
            }
            for (Map<?, ?> note : maps(comparison, "notes")) {
                lines.append(text(note, "kind").equals("constant") ? "note constant " + text(note, "class") + " " + text(note, "member")
                        : "note unloadable " + text(note, "side") + " " + text(note, "class") + " " + text(note, "error")).append('\n');
            }
            Map<?, ?> counts = (Map<?, ?>) comparison.get("counts");
            lines.append(comparison.get("verdict")).append(": ").append(counts.get("findings")).append(" findings, ").append(counts.get("collisions"))
                    .append(" collisions, ").append(counts.get("notes")).append(" notes\n");
            reports.add(new Report(lines.toString()));
        }
        return reports;
    }

    /** The texts of the lines that are accepted. */
    Set<String> accepted(int index) {
        Set<String> texts = new LinkedHashSet<>();
        for (Map<?, ?> line : maps(comparisons().get(index), "lines")) {
            if (Boolean.TRUE.equals(line.get("accepted"))) {
                texts.add(text(line, "text"));
            }
        }
        return texts;
    }

    List<String> needs() {
        List<String> needs = new ArrayList<>();
        ((List<?>) map.get("needs")).forEach(each -> needs.add(each.toString()));
        return needs;
    }

    /** Which version number is due; null where that wasn't asked. */
    Map<?, ?> due() {
        return (Map<?, ?>) map.get("due");
    }

    String jdk() {
        return text(map, "jdk");
    }
}
