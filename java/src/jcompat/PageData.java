package jcompat;

import java.io.IOException;
import java.nio.file.Path;
import java.util.ArrayList;
import java.util.Collections;
import java.util.LinkedHashMap;
import java.util.List;
import java.util.Map;
import java.util.stream.Collectors;

/** What the script of a page puts into a line that is opened. */
final class PageData {
    private final StringBuilder page;
    private final Meanings meanings;
    private final Map<Line, List<Line>> below;
    private final List<Line> shown;
    private final Path witnesses;

    PageData(StringBuilder page, Meanings meanings, Map<Line, List<Line>> below, List<Line> shown, Path witnesses) {
        this.page = page;
        this.meanings = meanings;
        this.below = below;
        this.shown = shown;
        this.witnesses = witnesses;
    }

    private void put(String text) {
        page.append(text);
    }

    /** Texts, each once, and what each line has of them, by its number. */
    void putData() throws IOException {
        Map<String, Integer> texts = new LinkedHashMap<>();
        List<String> lines = new ArrayList<>();
        for (Line line : shown) {
            List<String> parts = new ArrayList<>();
            parts.add("\"t\":" + json(line.toString()));
            parts.add("\"s\":" + place(fails(line), texts));
            if (meanings.has(line.rule)) {
                parts.add("\"a\":" + place(meanings.anchor(line.rule), texts));
            }
            String folded = line.isMade() ? "" : below.get(line).stream().filter(other -> other != line)
                    .map(other -> "[" + other.number + "," + json(other.rule + " " + Html.dotted(other.type)) + "]").collect(Collectors.joining(","));
            if (!folded.isEmpty()) {
                parts.add("\"f\":[" + folded + "]");
            }
            List<String> client = witnesses == null ? Collections.emptyList() : new WitnessText(line).read(witnesses.resolve(String.format("%06d", line.number)));
            if (!client.isEmpty()) {
                parts.add("\"w\":[" + client.stream().map(text -> "" + place(text, texts)).collect(Collectors.joining(",")) + "]");
            }
            lines.add("\"" + line.number + "\":{" + String.join(",", parts) + "}");
        }
        put("<script type=application/json id=data>{\"d\":[" + texts.keySet().stream().map(PageData::json).collect(Collectors.joining(",\n")) + "],\"n\":{"
                + String.join(",\n", lines) + "}}</script>\n");
    }

    private static int place(String text, Map<String, Integer> texts) {
        Integer known = texts.putIfAbsent(text, texts.size());
        return known == null ? texts.size() - 1 : known;
    }

    private static String json(String text) {
        StringBuilder all = new StringBuilder("\"");
        for (char unit : text.toCharArray()) {
            if (unit == '"' || unit == '\\') {
                all.append('\\').append(unit);
            } else if (unit < 0x20 || unit == '<' || unit > 0x2000 && unit < 0x2100) {
                all.append(String.format("\\u%04x", (int) unit));
            } else {
                all.append(unit);
            }
        }
        return all.append('"').toString();
    }

    /** The act, the clients, the error. */
    private static String fails(Line line) {
        String from = line.seat.equals("-") ? "" : line.seat.equals("java/lang/Object") ? " from any class" : " from subclasses of " + Html.dotted(line.seat);
        if (line.rule.equals(Line.DROPPED)) {
            return "an assignment to the interface that is made when the code runs, as a cast";
        }
        if (line.isCall()) {
            return CallWords.fails(line);
        }
        if (line.rule.equals(Line.WARNING)) {
            return "a call, when it runs: it may find another method than before, or none";
        }
        return line.act + from + " ends with " + line.error;
    }
}
