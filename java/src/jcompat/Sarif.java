package jcompat;

import java.io.IOException;
import java.net.URI;
import java.nio.file.Path;
import java.util.ArrayList;
import java.util.HashSet;
import java.util.LinkedHashMap;
import java.util.List;
import java.util.Map;
import java.util.Set;

/**
 * What was found in the form of SARIF 2.1.0, for a review of code: each line that isn't folded into another one, and each note of a constant, where the sources are
 * named at its place in them. Accepted lines are suppressed.
 */
final class Sarif {
    private static final String CONSTANT = "note-constant";

    private final Outcome outcome;
    private final Meanings meanings;
    private final List<String> rules = new ArrayList<>();
    private final List<Object> results = new ArrayList<>();
    private final List<Object> notifications = new ArrayList<>();

    Sarif(Outcome outcome) throws IOException {
        this.outcome = outcome;
        meanings = new Meanings(Page.resource("FINDINGS.md"));
    }

    Map<String, Object> map() throws IOException {
        Set<String> told = new HashSet<>();
        for (Comparison each : outcome.comparisons) {
            addResults(each, told);
        }
        List<Object> described = new ArrayList<>();
        rules.forEach(rule -> described.add(Json.object("id", rule, "shortDescription", Json.object("text", rule.equals(CONSTANT) ? "a constant has changed" : meanings.heading(rule)))));
        Map<String, Object> driver = Json.object("name", "jcompat", "rules", described);
        String version = System.getProperty("jcompat.version");
        if (version != null) {
            driver.put("version", version);
        }
        Map<String, Object> invocation = Json.object("executionSuccessful", true, "exitCode", outcome.status, "toolExecutionNotifications", notifications);
        Map<String, Object> run = Json.object("tool", Json.object("driver", driver), "columnKind", "utf16CodeUnits", "invocations", List.of(invocation), "artifacts", artifacts(), "results", results,
                "properties", Json.object("verdict", outcome.comparisons.get(0).report.verdict, "jdk", outcome.jdk.version));
        return Json.object("$schema", "https://json.schemastore.org/sarif-2.1.0.json", "version", "2.1.0", "runs", List.of(run));
    }

    /** Both releases, with their sums. */
    private List<Object> artifacts() throws IOException {
        List<Object> artifacts = new ArrayList<>();
        for (Path release : outcome.request.releases) {
            URI address = release.toAbsolutePath().normalize().toUri();
            artifacts.add(Json.object("location", Json.object("uri", address.toString()), "roles", List.of("analysisTarget"), "hashes", Json.object("sha-256", Digest.of(release))));
        }
        return artifacts;
    }

    private void addResults(Comparison comparison, Set<String> told) throws IOException {
        Words words = new Words(comparison.oldRelease, comparison.newRelease);
        Map<Line, List<Line>> below = comparison.folding.below(comparison.report.all());
        for (Map.Entry<Line, List<Line>> each : below.entrySet()) {
            Line line = each.getKey();
            if (told.add(line.text)) {
                List<String> said = words.safely(line);
                String folded = comparison.folding.folded(line, each.getValue());
                Map<String, Object> result = result(line.rule, line.isFinding() ? "error" : "warning", said.get(0) + folded + (said.get(1).isEmpty() ? "" : ". A client that breaks: " + said.get(1)),
                        line.text, outcome.sources.of(line, comparison), line.type, line.member);
                if (comparison.accepted.contains(line)) {
                    result.put("suppressions", List.of(Json.object("kind", "external", "status", "accepted")));
                }
                result.put("properties", Json.object("line", line.toString(), "clients", comparison.name()));
                results.add(result);
            }
        }
        for (Note note : comparison.report.notes) {
            String text = "note constant " + note.type + " " + note.detail;
            if (note.isConstant && told.add(text)) {
                results.add(result(CONSTANT, "note", Names.simple(note.type) + "." + Names.member(note.detail) + " has another value: clients keep the old one until they are compiled anew",
                        text, outcome.sources.of(note.type, note.detail, comparison), note.type, note.detail));
            }
        }
        long lost = comparison.report.unloadable("old").size();
        if (lost > 0) {
            notifications.add(Json.object("level", "warning", "message", Json.object("text", lost + " classes of the old release weren't compared " + comparison.name() + ", since they don't load here")));
        }
    }

    private Map<String, Object> result(String rule, String level, String message, String text, Sources.Place place, String type, String member) {
        if (!rules.contains(rule)) {
            rules.add(rule);
        }
        boolean isMember = member.contains("(") || member.contains(":");
        Map<String, Object> location = new LinkedHashMap<>();
        if (place != null) {
            location.put("physicalLocation", Json.object("artifactLocation", Json.object("uri", place.address), "region", Json.object("startLine", place.line)));
        }
        location.put("logicalLocations", List.of(Json.object("fullyQualifiedName", Html.dotted(type) + (isMember ? "." + member : ""), "kind",
                !isMember ? "type" : member.contains("(") ? "function" : "member")));
        return Json.object("ruleId", rule, "ruleIndex", rules.indexOf(rule), "level", level, "message", Json.object("text", message), "locations", List.of(location),
                "partialFingerprints", Json.object("jcompatLine/v1", text));
    }
}
