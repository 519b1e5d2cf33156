package jcompat;

import java.io.IOException;
import java.util.ArrayList;
import java.util.List;
import java.util.Locale;
import java.util.Map;
import java.util.stream.Collectors;

/** A page of HTML of what clients lose, in the style of that of a comparison; it asks for nothing outside itself. */
final class AffectedPage {
    private static final int MOST_SPOTS = 50;

    private final StringBuilder page = new StringBuilder();
    private final AffectedReport report;

    AffectedPage(AffectedReport report) {
        this.report = report;
    }

    String html() throws IOException {
        put("<!doctype html>\n<html lang=en><head><meta charset=utf-8><meta name=viewport content=\"width=device-width,initial-scale=1\">"
                + "<meta name=color-scheme content=\"light dark\"><meta http-equiv=Content-Security-Policy content=\"default-src 'none'; style-src 'unsafe-inline'\">");
        put("<title>" + Html.text(title()) + ": " + headline().toLowerCase(Locale.ROOT) + "</title>\n<style>" + Page.resource("report-page.css") + "</style></head><body>\n");
        putHead();
        put("<main>\n");
        putSpots();
        putTable();
        report.broken().forEach(this::putClient);
        putRest("not-asked", "Clients that weren’t asked", "Nothing is said of these.", report.refused().stream().map(client -> client.name + ": " + client.refusal).collect(Collectors.toList()));
        putRest("strangers", "At hand, and no clients", "They name no class of the old release, nor have one above what they name, so they lose nothing.",
                report.all.stream().filter(report.strangers::contains).map(client -> client.name).collect(Collectors.toList()));
        put("</main>\n<footer><p>Made by <code>affected</code> of what <code>jcompat clients</code> prints.</footer>\n</body></html>\n");
        return page.toString();
    }

    private void put(String text) {
        page.append(text);
    }

    private String title() {
        return report.request.oldRelease.getFileName() + " to " + report.request.newRelease.getFileName();
    }

    private String headline() {
        int broken = report.broken().size();
        int asked = report.clients().size() - report.refused().size();
        return broken == 0 ? "No client breaks" : Html.count(broken, "client") + (broken == 1 ? " breaks" : " break") + " of " + asked;
    }

    private void putHead() {
        boolean isBad = !report.broken().isEmpty();
        boolean isAll = report.refused().isEmpty() && report.partlyAsked() == 0;
        put("<header><p class=title>" + Html.text(title()) + "</p><h1 class=" + (isBad ? "bad" : isAll ? "good" : "may") + ">" + headline() + "</h1>\n<p class=lead>"
                + "What a client loses linked with the old release, and doesn’t with the new one; what failed before isn’t counted.</p>\n<p class=sum>");
        put(Html.text(report.counts().replaceFirst("affected: ", "")) + ". JDK <code>" + Html.text(report.jdk.version) + "</code></p>\n");
        if (report.partlyAsked() > 0) {
            put("<p class=warn role=note>Of " + Html.count(report.partlyAsked(), "client") + " <strong>not all was asked</strong>: classes are left out, or miss others. <a href=#clients>How many</a></p>\n");
        }
        if (!report.packages().isEmpty()) {
            put("<p class=warn role=note>Packages that need a change: " + report.packages().stream().map(name -> "<code>" + Html.text(name) + "</code>").collect(Collectors.joining(", ")) + "</p>\n");
        }
        put("</header>\n");
    }

    private void putSpots() {
        List<Map.Entry<String, Integer>> spots = new ArrayList<>(report.spots().entrySet());
        if (spots.isEmpty()) {
            return;
        }
        put("<section aria-labelledby=spots><h2 id=spots>What is lost <small>" + spots.size() + "</small></h2><p>Of each the number of clients that lose it.</p>\n<table><tbody>");
        spots.stream().limit(MOST_SPOTS).forEach(each -> put("<tr><td>" + each.getValue() + "<td><code>" + Html.text(each.getKey()) + "</code>\n"));
        put("</tbody></table>" + (spots.size() > MOST_SPOTS ? "<p>And " + (spots.size() - MOST_SPOTS) + " others, which stand with their clients.</p>" : "") + "</section>\n");
    }

    private void putTable() {
        put("<section aria-labelledby=clients><h2 id=clients>Clients <small>" + report.clients().size() + "</small></h2>\n<table><thead><tr><th>client<th><th>classes<th>uses of the release<th>lost"
                + "<th>classes left out<th>classes missing</thead><tbody>");
        for (Client client : report.clients()) {
            String name = Html.text(client.name);
            put("<tr><th scope=row>" + (client.isBroken() ? "<a href=\"#c" + report.all.indexOf(client) + "\">" + name + "</a>" : name));
            put(client.isAsked() ? "<td>" + (client.isBroken() ? "breaks" : "keeps") + "<td>" + client.own.size() + "<td>" + client.uses.size() + "<td>" + client.lost().size() + "<td>" + client.leftOut()
                    + "<td>" + client.missing.size() + "\n" : "<td>not asked<td><td><td><td>" + client.leftOut() + "<td>\n");
        }
        put("</tbody></table></section>\n");
    }

    private void putClient(Client client) {
        put("<section aria-labelledby=c" + report.all.indexOf(client) + "><h3 id=c" + report.all.indexOf(client) + ">" + Html.text(client.name) + " <small>" + client.lost().size() + "</small></h3><ul class=plain>");
        client.lost().forEach(loss -> put("<li><details><summary><code>" + Html.text(loss.text()) + "</code>" + (loss.words == null ? "" : " " + Html.text(loss.words)) + "</summary><p>In " + loss.in.stream().map(Html::dotted).map(Html::text)
                .map(name -> "<code>" + name + "</code>").collect(Collectors.joining(", ")) + "</p></details>\n"));
        put("</ul></section>\n");
    }

    private void putRest(String id, String heading, String text, List<String> lines) {
        if (lines.isEmpty()) {
            return;
        }
        put("<section aria-labelledby=" + id + "><h2 id=" + id + ">" + heading + " <small>" + lines.size() + "</small></h2><p>" + text + "</p><details class=rest><summary>" + Html.count(lines.size(), "line")
                + "</summary><ul class=plain>");
        lines.forEach(line -> put("<li>" + Html.text(line) + "\n"));
        put("</ul></details></section>\n");
    }
}
