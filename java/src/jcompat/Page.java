package jcompat;

import java.io.IOException;
import java.io.InputStream;
import java.nio.charset.StandardCharsets;
import java.nio.file.Path;
import java.util.ArrayList;
import java.util.Arrays;
import java.util.Comparator;
import java.util.LinkedHashSet;
import java.util.List;
import java.util.Locale;
import java.util.Map;
import java.util.Set;
import java.util.TreeMap;
import java.util.stream.Collectors;

/**
 * A page of HTML of a report, which asks for nothing outside itself. What a line means, and what to do, comes from FINDINGS.md, which this library
 * has inside, as it has the style and the script.
 */
final class Page {
    /** Above so many lines the script makes the lists of them, a part at a time, so that the page opens at once. */
    private static final int MOST_AT_ONCE = 300;

    private final StringBuilder page = new StringBuilder();
    private final PageInput input;
    private final Report report;
    private final Meanings meanings;
    private final Map<Line, List<Line>> below;
    private final List<Line> made;
    /** What is shown: the lines that aren't folded, and those on names that compilers make. */
    private final List<Line> shown = new ArrayList<>();
    private final Path witnesses;
    private final String title;

    Page(PageInput input, Path witnesses, String title) throws IOException {
        meanings = new Meanings(resource("FINDINGS.md"));
        this.input = input;
        this.witnesses = witnesses;
        this.title = title;
        report = input.report;
        below = input.folding.below(report.all());
        // what a module alone has isn't folded into what it hasn't
        input.ofModules.forEach(line -> below.put(line, new ArrayList<>(List.of(line))));
        made = report.lines.stream().filter(Line::isMade).collect(Collectors.toList());
        shown.addAll(below.keySet());
        shown.addAll(made);
    }

    String html() throws IOException {
        return page(resource("report-page.css"), resource("report-page.js"));
    }

    static String resource(String name) throws IOException {
        try (InputStream in = Page.class.getResourceAsStream("page/" + name)) {
            return new String(in.readAllBytes(), StandardCharsets.UTF_8);
        }
    }

    private String page(String style, String script) throws IOException {
        put("<!doctype html>\n<html lang=en><head><meta charset=utf-8><meta name=viewport content=\"width=device-width,initial-scale=1\">"
                + "<meta name=color-scheme content=\"light dark\"><meta http-equiv=Content-Security-Policy content=\"default-src 'none'; "
                + "style-src 'unsafe-inline'; script-src 'unsafe-inline'\">");
        put("<title>" + Html.text(title) + ": " + verdict().toLowerCase(Locale.ROOT) + "</title>\n<style>" + style + "</style></head><body>\n");
        putVerdict();
        put("<main>\n");
        new PageCounts(page, report, meanings, below, shown.stream().filter(line -> !line.isFurther()).collect(Collectors.toList())).putCounts();
        putFilter();
        put("<div id=lines tabindex=-1>\n");
        List<Line> all = new ArrayList<>(below.keySet());
        List<Line> tops = all.stream().filter(line -> !input.ofModules.contains(line)).collect(Collectors.toList());
        putGroup("findings", "Findings", "Each breaks some client. They decide the verdict.",
                tops.stream().filter(Line::isFinding).collect(Collectors.toList()), false);
        putGroup("collisions", "Collisions", "Each breaks only clients that get the member from elsewhere, or declare it themselves.",
                tops.stream().filter(line -> !line.isFinding() && !line.isFurther()).collect(Collectors.toList()), false);
        putGroup("modules", "Only as modules", "Lines that those have who put the releases on the module path, beside the ones above.", input.ofModules, false);
        putGroup("warnings-of", "Warnings", "The code links, and a call may fail, or do something else, when it runs: most often in classes of clients that extend or implement these.",
                tops.stream().filter(line -> line.rule.equals(Line.WARNING)).collect(Collectors.toList()), false);
        putGroup("dropped-of", "Dropped interfaces", "The code links, and an object may fail where it is used as the interface.",
                tops.stream().filter(line -> line.rule.equals(Line.DROPPED)).collect(Collectors.toList()), false);
        putGroup("calls-of", "Calls", "The code links, and a method reference, a call or a switch of some client fails when it runs.",
                tops.stream().filter(Line::isCall).collect(Collectors.toList()), false);
        putGroup("made", "Collisions on names that compilers make", "On members with a $ in their name.", made, true);
        put("</div>\n");
        putNotes();
        putMeanings();
        put("</main>\n<footer><p>Made by <code>report-page</code> of a report of <code>jcompat check</code>, whose numbers the lines have. "
                + "A line is folded into another where <code>check-jars --help</code> says so; each line of the report is here once.</footer>\n");
        new PageData(page, meanings, below, shown, witnesses).putData();
        put("<script>" + script + "</script></body></html>\n");
        return page.toString();
    }

    private void put(String text) {
        page.append(text);
    }

    private boolean isCompatible() {
        return report.verdict.startsWith("compatible");
    }

    /** Whether there are findings that aren't accepted. */
    private boolean isLeft() {
        return report.lines.stream().anyMatch(line -> line.isFinding() && !input.isAccepted(line));
    }

    private String verdict() {
        long warnings = input.warnings();
        long findings = report.lines.stream().filter(Line::isFinding).count();
        return !isCompatible() ? isLeft() ? "Incompatible" : "Compatible but for " + String.format(Locale.ROOT, "%,d", findings) + " accepted" : warnings == 0 ? "Compatible"
                : "Links; " + String.format(Locale.ROOT, "%,d", warnings) + (warnings == 1 ? " call may fail" : " calls may fail");
    }

    private void putVerdict() {
        boolean isGood = input.warnings() == 0 && (input.verdictOfModules == null || input.verdictOfModules.startsWith("compatible"));
        String kind = !isCompatible() ? isLeft() ? "bad" : "may" : isGood ? "good" : "may";
        put("<a class=skip href=#lines>Skip to the lines</a>\n<header><p class=title>" + Html.text(title) + "</p><h1 class=" + kind + ">"
                + verdict() + "</h1>\n<p class=lead>");
        put(isCompatible() ? "Clients that were compiled against the old release still link with the new one"
                + (report.lines.isEmpty() ? "." : ", but for those that meet one of the collisions below.")
                : "Some clients that were compiled against the old release don’t link with the new one: each finding below breaks one.");
        put("</p>\n");
        putFacts();
        long lost = lost("old").size();
        if (lost > 0) {
            put("<p class=warn role=note><strong>" + String.format(Locale.ROOT, "%,d", lost) + " of " + Html.count(input.oldRelease.size(), "class")
                    + " of the old release weren’t compared</strong>, since they don’t load here: most often they miss a library. <a href=#notes>Which</a></p>\n");
        }
        long findings = report.lines.stream().filter(Line::isFinding).count();
        long folded = report.all().size() + input.ofModules.size() - shown.size();
        long warnings = report.count(Line.WARNING);
        long dropped = report.count(Line.DROPPED);
        long onCalls = report.count(Line.CALL);
        long accepted = report.all().stream().filter(input::isAccepted).count();
        put("<p class=sum><strong>" + Html.count(findings, "finding") + "</strong>, " + Html.count(report.lines.size() - findings, "collision") + ", "
                + Html.count(report.notes.size(), "note") + (warnings == 0 ? "" : ", " + Html.count(warnings, "warning"))
                + (dropped == 0 ? "" : ", " + Html.count(dropped, "dropped interface")) + (onCalls == 0 ? "" : ", " + Html.count(onCalls, "line") + " on calls")
                + (accepted == 0 ? "" : ", " + String.format(Locale.ROOT, "%,d", accepted)
                + " of these accepted") + "." + (folded == 0 ? "" : " " + Html.count(folded, "line") + (folded == 1 ? " is" : " are")
                + " folded into others, mostly the same member through a subclass.") + "</p></header>\n");
    }

    /** Which version number is due; what else is asked for where that isn't the same. */
    private void putDue() {
        Map<?, ?> due = input.due;
        String number = DocumentText.text(due, due.get("number") == null ? "step" : "number");
        boolean isNumber = due.get("number") != null;
        put("<p class=sum>Due by Semantic Versioning: <strong>" + Html.text(isNumber ? number : "a " + number + " step") + "</strong>" + (isNumber ? ", a " + due.get("step") + " step" : "")
                + (Boolean.FALSE.equals(due.get("whole")) ? ", at least, since not all was compared" : ""));
        List<?> reasons = (List<?>) due.get("reasons");
        put(": " + (reasons.isEmpty() ? "nothing asks for more" : reasons.stream().map(each -> Html.text(each.toString())).collect(Collectors.joining("; "))) + ".");
        if (!due.get("gate_step").equals(due.get("step"))) {
            put(" The gate <code>version</code> asks for " + Html.text(isNumber ? DocumentText.text(due, "gate_number") : "a " + due.get("gate_step") + " step")
                    + ": it is proved, and looks at findings and collisions alone; the rest is tested, not proved.");
        }
        put("</p>\n");
    }

    /** What Java is needed, what it is as modules, and of what the page is. */
    private void putFacts() {
        input.needs.forEach(need -> put("<p class=warn role=note>The new release " + Html.text(need) + ".</p>\n"));
        if (input.verdictOfModules != null) {
            put("<p class=warn role=note>This is for clients that have both releases on the class path. As modules the new release is <strong>"
                    + Html.text(input.verdictOfModules) + "</strong>" + (input.ofModules.isEmpty() ? "" : ": <a href=#modules>what is more there</a>") + ".</p>\n");
        }
        if (input.due != null) {
            putDue();
        }
        put("<p class=sum>" + input.facts.stream().map(fact -> Html.text(fact[0]) + " <code>" + Html.text(fact[1]) + "</code>").collect(Collectors.joining("; "))
                + "</p>\n");
    }

    private List<Note> lost(String side) {
        return report.notes.stream().filter(note -> !note.isConstant && note.side.equals(side)).collect(Collectors.toList());
    }

    private void putFilter() {
        put("<section aria-labelledby=h-lines><h2 id=h-lines>Lines</h2><form id=filter role=search hidden><label>Text <input id=q type=search autocomplete=off "
                + "placeholder=\"class, member, error\"></label><label>Rule <select id=rule><option value=\"\">all</option>");
        shown.stream().map(line -> line.rule).distinct().sorted(Comparator.comparingInt(meanings::place))
                .forEach(rule -> put("<option value=" + Html.text(rule) + ">" + Html.text(rule) + " " + meanings.title(rule) + "</option>"));
        put("</select></label><label>Package <select id=package><option value=\"\">all</option>");
        shown.stream().map(line -> Html.packageOf(line.type)).distinct().sorted().forEach(name -> put("<option>" + Html.text(name) + "</option>"));
        put("</select></label><button type=reset>Show all</button><output id=shown aria-live=polite data-n=" + shown.size() + "></output></form>\n"
                + "<noscript><p>The filter, and what stands in each line, need the script of this page.</p></noscript></section>\n");
    }

    /** Lines by package, and in it by class. Of a long report they are text, of which the script makes lists. */
    private void putGroup(String id, String heading, String text, List<Line> lines, boolean closed) {
        if (lines.isEmpty()) {
            return;
        }
        put("<section class=group aria-labelledby=" + id + "><h2 id=" + id + ">" + heading + " <small>" + lines.size() + "</small></h2><p>" + text + "</p>\n"
                + (closed ? "<details class=rest><summary>" + Html.count(lines.size(), "line") + "</summary>\n" : ""));
        boolean late = shown.size() > MOST_AT_ONCE;
        Map<String, List<Line>> packages = lines.stream().sorted(Comparator.comparing((Line line) -> line.type).thenComparing(line -> line.number))
                .collect(Collectors.groupingBy(line -> Html.packageOf(line.type), TreeMap::new, Collectors.toList()));
        packages.forEach((name, some) -> {
            put("<section class=p data-p=\"" + Html.text(name) + "\" style=\"contain-intrinsic-size:auto " + (3 + some.size() * 4) + "em\"><h3>" + Html.text(name)
                    + " <small>" + some.size() + "</small></h3>" + (late ? "<script type=text/html>" : "<ul>\n"));
            some.forEach(this::putLine);
            put((late ? "</script>" : "</ul>") + "</section>\n");
        });
        put(closed ? "</details></section>\n" : "</section>\n");
    }

    private void putLine(Line line) {
        List<String> said = input.said(line);
        put("<li id=n" + line.number + " data-r=" + Html.text(line.rule) + "><details><summary><b>" + Html.text(line.rule) + "</b> " + Html.text(said.get(0))
                + (line.isMade() || below.get(line).size() == 1 ? "" : " <em>" + Html.text(input.folding.folded(line, below.get(line)).trim()) + "</em>")
                + (input.isAccepted(line) ? " <em>accepted</em>" : "")
                + (said.get(1).isEmpty() ? "" : " <code>" + Html.text(said.get(1)) + "</code>") + "</summary></details>\n");
    }

    // ---- notes and meanings

    private void putNotes() {
        if (report.notes.isEmpty()) {
            return;
        }
        put("<section aria-labelledby=notes><h2 id=notes>Notes <small>" + report.notes.size() + "</small></h2>");
        for (String side : Arrays.asList("old", "new")) {
            List<Note> lost = lost(side);
            putNotes(lost, Html.count(lost.size(), "class") + " of the " + side + " release " + (lost.size() == 1 ? "doesn’t" : "don’t") + " load"
                    + (side.equals("old") ? ", and " + (lost.size() == 1 ? "wasn’t" : "weren’t") + " compared" : ""), "note_unloadable");
        }
        List<Note> constants = report.notes.stream().filter(note -> note.isConstant).collect(Collectors.toList());
        putNotes(constants, Html.count(constants.size(), "constant") + (constants.size() == 1 ? " has" : " have") + " another value, or none", "note_constant");
        put("</section>\n");
    }

    private void putNotes(List<Note> notes, String summary, String anchor) {
        if (notes.isEmpty()) {
            return;
        }
        put("<details class=rest><summary>" + summary + "</summary><p><a href=\"#" + anchor + "\">What this means</a></p><ul class=plain>");
        notes.forEach(note -> put("<li><code>" + Html.text(Html.dotted(note.type)) + "</code> " + Html.text(note.isConstant ? new Signature(note.detail, false).declared("") : note.detail) + "\n"));
        put("</ul></details>");
    }

    /** What the rules of the lines mean, and what to do. */
    private void putMeanings() {
        Set<String> anchors = new LinkedHashSet<>();
        shown.stream().map(line -> line.rule).distinct().filter(meanings::has).sorted(Comparator.comparingInt(meanings::place))
                .forEach(rule -> anchors.add(meanings.anchor(rule)));
        report.notes.forEach(note -> anchors.add(note.isConstant ? "note_constant" : "note_unloadable"));
        put("<section aria-labelledby=h-rules><h2 id=h-rules>What the lines mean, and what to do</h2>\n");
        anchors.forEach(anchor -> put("<details class=rule id=" + anchor + ">" + meanings.section(anchor, anchors) + "</details>\n"));
        put("</section>\n");
    }
}
