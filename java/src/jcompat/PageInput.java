package jcompat;

import java.time.Instant;
import java.time.LocalDate;
import java.time.ZoneOffset;
import java.util.ArrayList;
import java.util.HashMap;
import java.util.HashSet;
import java.util.List;
import java.util.Map;
import java.util.Set;
import java.util.stream.Collectors;

/** What a page is made of: the lines of one comparison, those that another one has beside them, and what is said of the releases. */
final class PageInput {
    /** The first comparison. */
    final Report report;
    final Classes oldRelease;
    final Folding folding;
    /** Lines that only the releases as modules have, behind all others by their numbers. */
    final List<Line> ofModules = new ArrayList<>();
    /** The verdict of the releases as modules, beside that of the first comparison; or null. */
    String verdictOfModules;
    /** What Java the new release needs, and the like. */
    final List<String> needs = new ArrayList<>();
    /** Which version number is due, as a document has it; or null. */
    Map<?, ?> due;
    /** To each thing that is said of the releases what it is, in order. */
    final List<String[]> facts = new ArrayList<>();
    private final Set<String> accepted = new HashSet<>();
    private final Words words;
    private final Map<Line, Words> wordsOfModules = new HashMap<>();

    PageInput(Report report, Classes oldRelease, Classes newRelease) {
        this.report = report;
        this.oldRelease = oldRelease;
        words = new Words(oldRelease, newRelease);
        folding = new Folding(report.all(), oldRelease);
    }

    static PageInput of(Outcome outcome) {
        Comparison first = outcome.comparisons.get(0);
        PageInput input = new PageInput(first.report, first.oldRelease, first.newRelease);
        first.accepted.forEach(line -> input.accepted.add(line.text));
        for (Comparison other : outcome.comparisons.subList(1, outcome.comparisons.size())) {
            input.addModules(other.report, other.oldRelease, other.newRelease, other.accepted.stream().map(line -> line.text).collect(Collectors.toSet()));
        }
        input.needs.addAll(outcome.needs);
        input.due = outcome.due == null ? null : outcome.due.map();
        for (int i = 0; i < 2; i++) {
            String version = outcome.version(i);
            input.addRelease(i, outcome.request.releases.get(i).getFileName() + (version == null ? "" : ", version " + version));
        }
        input.facts.add(new String[] {"JDK", outcome.jdk.version});
        input.addDate();
        return input;
    }

    void addRelease(int index, String text) {
        facts.add(new String[] {index == 0 ? "old release" : "new release", text});
    }

    void addDate() {
        String epoch = System.getenv("SOURCE_DATE_EPOCH");
        LocalDate date = epoch == null ? LocalDate.now(ZoneOffset.UTC) : Instant.ofEpochSecond(Long.parseLong(epoch)).atZone(ZoneOffset.UTC).toLocalDate();
        facts.add(new String[] {"made on", date.toString()});
    }

    void accept(Set<String> texts) {
        accepted.addAll(texts);
    }

    /** Adds the lines of a second comparison that the first doesn't have. */
    void addModules(Report other, Classes oldClasses, Classes newClasses, Set<String> theirs) {
        verdictOfModules = other.verdict;
        accepted.addAll(theirs);
        Set<String> known = report.all().stream().map(line -> line.text).collect(Collectors.toSet());
        Words said = new Words(oldClasses, newClasses);
        int place = report.all().size();
        for (Line line : other.all()) {
            if (!known.contains(line.text)) {
                Line moved = line.at(++place);
                ofModules.add(moved);
                wordsOfModules.put(moved, said);
            }
        }
    }

    boolean isAccepted(Line line) {
        return accepted.contains(line.text);
    }

    List<String> said(Line line) {
        return wordsOfModules.getOrDefault(line, words).safely(line);
    }

    /** How many warnings and lines on calls there are that aren't accepted, and break somebody. */
    long warnings() {
        return report.further.stream().filter(line -> !line.rule.equals(Line.DROPPED) && !isAccepted(line) && !said(line).get(1).isEmpty()).count();
    }
}
