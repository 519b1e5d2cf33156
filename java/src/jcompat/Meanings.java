package jcompat;

import java.util.ArrayList;
import java.util.HashMap;
import java.util.LinkedHashMap;
import java.util.List;
import java.util.Locale;
import java.util.Map;
import java.util.Set;
import java.util.TreeSet;

/** What each rule means, out of the sections of FINDINGS.md: an anchor, a heading with the rule, and text. */
final class Meanings {
    private static final Set<String> FURTHER = Set.of(Line.DROPPED, Line.REFERENCE, Line.ACCESS, Line.JOINED, Line.CONSTANTS);

    private final Map<String, String> sections = new LinkedHashMap<>();
    private final List<String> rules = new ArrayList<>();
    private final Map<String, String> anchors = new HashMap<>();
    private final Map<String, String> headings = new HashMap<>();

    Meanings(String text) {
        String anchor = null;
        List<String> body = new ArrayList<>();
        for (String line : (text + "\n<a id=\"\"></a>").split("\n")) {
            if (line.startsWith("<a id=\"")) {
                if (anchor != null) {
                    sections.put(anchor, new Markdown().html(body));
                }
                anchor = line.substring(7, line.indexOf('"', 7));
                body.clear();
            } else {
                body.add(line);
                if (line.matches("## \\w+: .*") && !line.startsWith("## Notes")) {
                    String rule = line.substring(3, line.indexOf(':'));
                    // sections of several lines are named by their number, lines by one
                    rule = rule.equals("Warnings") ? Line.WARNING : FURTHER.contains(rule.toLowerCase(Locale.ROOT)) ? rule.toLowerCase(Locale.ROOT) : rule;
                    rules.add(rule);
                    anchors.put(rule, anchor);
                    headings.put(rule, line.substring(line.indexOf(':') + 2));
                }
            }
        }
    }

    boolean has(String rule) {
        return anchors.containsKey(rule);
    }

    /** Rules that aren't known come last. */
    int place(String rule) {
        return has(rule) ? rules.indexOf(rule) : rules.size();
    }

    String anchor(String rule) {
        return anchors.get(rule);
    }

    /** In HTML. */
    String title(String rule) {
        return Markdown.inline(heading(rule));
    }

    /** As the document has it. */
    String heading(String rule) {
        return headings.getOrDefault(rule, "");
    }

    /** A section, whose links to others that the page doesn't have are none. */
    String section(String anchor, Set<String> there) {
        String all = sections.getOrDefault(anchor, "");
        for (String other : new TreeSet<>(sections.keySet())) {
            all = there.contains(other) ? all : all.replace("href=\"#" + other + "\"", "class=off");
        }
        return all;
    }
}
