package jcompat;

import java.io.IOException;
import java.nio.file.Files;
import java.nio.file.Path;
import java.util.ArrayList;
import java.util.Arrays;
import java.util.List;
import java.util.Set;
import java.util.stream.Collectors;

/** Two releases, compared as those who have both on the class path see them, or as modules, and what was found. */
final class Comparison {
    final boolean asModules;
    final Classes oldRelease;
    final Classes newRelease;
    /** The options of the program, also those that nobody gave. */
    final List<String> options;
    Program.Answer answer;
    Report report;
    Folding folding;
    /** The lines that are accepted, and the others. */
    Set<Line> accepted;
    List<Line> left;
    /** Whether all of the old release was compared. */
    boolean isWhole;
    /** What was added, where that is asked for; or null. */
    Additions additions;
    /** The status of this comparison alone. */
    int status;

    Comparison(boolean asModules, Classes oldRelease, Classes newRelease, List<String> options) {
        this.asModules = asModules;
        this.oldRelease = oldRelease;
        this.newRelease = newRelease;
        this.options = options;
    }

    String name() {
        return asModules ? "as modules" : "on the class path";
    }

    /** Runs the program. */
    void ask(Program program, World world, Host host) throws IOException, Stop {
        List<String> words = new ArrayList<>(Arrays.asList("check", "--platform", world.platform.toString(), "--old", world.releases.get(0).folder.toString(),
                "--new", world.releases.get(1).folder.toString()));
        words.addAll(options);
        answer = program.run(words, host);
        if (answer.status > 1) {
            throw new Stop(answer.status, new Refusal(world, answer).advice(answer.status));
        }
        report = new Report(answer.text());
        if (report.verdict == null) {
            throw new Stop("jcompat ended without a verdict: it needs Linux on x86-64, with glibc 2.34 or later");
        }
        folding = new Folding(report.all(), oldRelease);
        isWhole = report.unloadable("old").isEmpty();
    }

    /** The notes of classes that don't load. */
    Set<String> unloadable() {
        return report.notes.stream().filter(note -> !note.isConstant).map(note -> note.side + " " + note.type + " " + note.detail).collect(Collectors.toSet());
    }

    /** Keeps what the program printed. */
    void keep(Path file) throws Stop {
        try {
            Files.write(file, answer.out);
        } catch (IOException failure) {
            throw new Stop(Stop.NOT_WRITTEN, "can't write to " + file);
        }
    }

    /** Finds what is accepted, and the status. */
    void judge(Accepted entries, Request request) {
        List<Line> all = report.all();
        accepted = entries == null ? Set.of() : entries.of(all, folding);
        left = all.stream().filter(line -> !accepted.contains(line)).collect(Collectors.toList());
        // the gate of the versions decides on all that was found
        status = entries == null || Gates.asked(options).contains("version") ? answer.status : Gates.status(options, left);
        if (request.whole && !isWhole) {
            status = Status.greater(status, Status.NOT_WHOLE);
        }
        if (request.strict && left.stream().anyMatch(Line::isFurther)) {
            status = Status.greater(status, Status.NOT_STRICT);
        }
    }
}
