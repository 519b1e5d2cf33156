package jcompat;

import java.io.IOException;
import java.io.PrintStream;
import java.nio.charset.StandardCharsets;
import java.nio.file.Files;
import java.nio.file.Path;
import java.nio.file.Paths;
import java.nio.file.StandardOpenOption;
import java.util.ArrayList;
import java.util.LinkedHashMap;
import java.util.LinkedHashSet;
import java.util.List;
import java.util.Map;
import java.util.Set;
import java.util.stream.Collectors;

/**
 * Tells a review what a document of check-jars has: a summary in Markdown, and then annotations in the form of the workflow commands of GitHub. They are of
 * causes alone: of lines that aren't folded into others, aren't accepted, and aren't on names that compilers make.
 */
final class Annotate {
    private static final int MOST = 10;

    private final List<Path> folders;
    private final StringBuilder summary = new StringBuilder();
    private final List<Map<?, ?>> causes = new ArrayList<>();

    Annotate(List<Path> folders) {
        this.folders = folders;
    }

    void run(String text, PrintStream out) throws IOException, Stop {
        DocumentText document = DocumentText.of(text);
        if (document == null || document.comparisons().isEmpty()) {
            throw new Stop("there is no verdict to tell of");
        }
        boolean several = document.comparisons().size() > 1;
        for (Map<?, ?> comparison : document.comparisons()) {
            add(comparison, several);
        }
        document.needs().forEach(need -> summary.append("- ").append(need).append('\n'));
        String file = System.getenv("GITHUB_STEP_SUMMARY");
        if (file == null || file.isEmpty()) {
            out.print(summary);
        } else {
            Files.write(Paths.get(file), summary.toString().getBytes(StandardCharsets.UTF_8), StandardOpenOption.CREATE, StandardOpenOption.APPEND);
        }
        causes.stream().limit(MOST).forEach(line -> out.println(annotation(line)));
        if (causes.size() > MOST) {
            out.println("and " + (causes.size() - MOST) + " more lines");
        }
    }

    private void add(Map<?, ?> comparison, boolean several) {
        Map<?, ?> counts = (Map<?, ?>) comparison.get("counts");
        String verdict = comparison.get("verdict") + ": " + counts.get("findings") + " findings, " + counts.get("collisions") + " collisions, " + counts.get("notes") + " notes";
        boolean isLeft = DocumentText.maps(comparison, "lines").stream().anyMatch(line -> line.get("kind").equals("finding") && Boolean.FALSE.equals(line.get("accepted")));
        summary.append("### ").append(several ? comparison.get("clients") + ": " : "").append(Verdict.of(verdict, (Long) counts.get("findings"), isLeft)).append("\n\n");
        List<Map<?, ?>> here = DocumentText.maps(comparison, "lines").stream().filter(Annotate::isCause).collect(Collectors.toList());
        Set<Object> told = causes.stream().map(line -> line.get("text")).collect(Collectors.toSet());
        here.stream().filter(line -> !told.contains(line.get("text"))).forEach(causes::add);
        addTable(here);
        int before = summary.length();
        DocumentText.maps(comparison, "notes").stream().filter(note -> note.get("kind").equals("constant"))
                .forEach(note -> summary.append("- `note constant ").append(note.get("class")).append(' ').append(note.get("member")).append("`\n"));
        long lost = DocumentText.maps(comparison, "notes").stream().filter(note -> "old".equals(note.get("side"))).count();
        if (lost > 0) {
            summary.append("- ").append(lost).append(" classes of the old release weren't compared: they don't load\n");
        }
        addCount(counts, "warnings", "warnings");
        addCount(counts, "dropped", "dropped interfaces");
        addCount(counts, "calls", "lines on calls");
        addCount(counts, "accepted", "lines are accepted");
        summary.append(summary.length() > before ? "\n" : "");
    }

    private void addCount(Map<?, ?> counts, String key, String words) {
        if (counts.get(key) instanceof Long && (Long) counts.get(key) > 0) {
            summary.append("- ").append(counts.get(key)).append(' ').append(words).append('\n');
        }
    }

    private static boolean isCause(Map<?, ?> line) {
        return line.get("number") != null && line.get("into") == null && Boolean.FALSE.equals(line.get("accepted")) && Boolean.FALSE.equals(line.get("made"));
    }

    /** How many lines of each rule each package has. */
    private void addTable(List<Map<?, ?>> lines) {
        if (lines.isEmpty()) {
            return;
        }
        Set<String> rules = new LinkedHashSet<>();
        Map<String, Map<String, Integer>> packages = new LinkedHashMap<>();
        for (Map<?, ?> line : lines) {
            String rule = DocumentText.text(line, "rule");
            rules.add(rule);
            packages.computeIfAbsent(Names.packageOf(DocumentText.text(line, "class")), any -> new LinkedHashMap<>()).merge(rule, 1, Integer::sum);
        }
        summary.append("| package | ").append(String.join(" | ", rules)).append(" |\n|---|").append("---|".repeat(rules.size())).append('\n');
        packages.forEach((name, counts) -> summary.append("| `").append(name).append("` | ")
                .append(rules.stream().map(rule -> "" + counts.getOrDefault(rule, 0)).collect(Collectors.joining(" | "))).append(" |\n"));
        summary.append('\n');
    }

    private String annotation(Map<?, ?> line) {
        String type = DocumentText.text(line, "class");
        String source = source(type);
        Map<?, ?> place = (Map<?, ?>) line.get("source");
        String file = place != null ? "file=" + property(DocumentText.text(place, "file")) + ",line=" + place.get("line") + "," : source == null ? "" : "file=" + property(source) + ",";
        return "::" + (line.get("kind").equals("finding") ? "error" : "warning") + " " + file + "title="
                + property(line.get("rule") + " " + type) + "::" + value(DocumentText.text(line, "words"));
    }

    /** The source of a class, where a folder has it: the JDK has classes too. */
    private String source(String type) {
        String top = type.replaceFirst("\\$.*", "");
        for (Path folder : folders) {
            for (String ending : new String[] {".java", ".kt"}) {
                if (Files.isReadable(folder.resolve(top + ending))) {
                    return folder + "/" + top + ending;
                }
            }
        }
        return null;
    }

    private static String value(String text) {
        return text.replace("%", "%25").replace("\r", "%0D").replace("\n", "%0A");
    }

    private static String property(String text) {
        return value(text).replace(":", "%3A").replace(",", "%2C");
    }
}
