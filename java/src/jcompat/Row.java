package jcompat;

import java.io.IOException;
import java.nio.file.Path;
import java.util.ArrayList;
import java.util.HashMap;
import java.util.List;
import java.util.Map;

/** A report of a row of releases. */
final class Row {
    private final List<Classes> releases;
    private final List<Report> steps = new ArrayList<>();
    /** As <code>step 1, lib-1.0.jar to lib-1.1.jar</code>. */
    private final List<String> names = new ArrayList<>();
    private final List<Javas> javas;
    private String last = "";

    /** The lines of each step have its number before them. */
    Row(List<Path> releaseNames, List<Classes> releases, List<Javas> javas, String text) {
        this.releases = releases;
        this.javas = javas;
        Map<String, StringBuilder> texts = new HashMap<>();
        for (String line : text.split("\n")) {
            String[] word = line.split(" ", 3);
            if (word[0].equals("step")) {
                texts.computeIfAbsent(word[1], any -> new StringBuilder()).append(word[2]).append("\n");
            }
            last = line;
        }
        for (int i = 1; i < releases.size(); i++) {
            steps.add(new Report(texts.get("" + i).toString()));
            names.add("step " + i + ", " + releaseNames.get(i - 1) + " to " + releaseNames.get(i));
        }
    }

    /** Whether all of each release but the last was compared. */
    boolean tell(Request.Explain explain, Host host, Uncompared uncompared) throws IOException {
        for (int i = 0; i < steps.size(); i++) {
            Report step = steps.get(i);
            if (!step.lines.isEmpty() || !step.notes.isEmpty()) {
                host.out.println(names.get(i) + ":");
                new Printed(step, new Folding(step.lines, releases.get(i)), new Words(releases.get(i), releases.get(i + 1)), explain, host.out)
                        .print(step.lines, List.of(step.verdict));
                host.out.println();
            }
        }
        for (int i = 0; i < steps.size(); i++) {
            String name = names.get(i);
            host.out.println(name + ": " + steps.get(i).verdict);
            Javas.needs(javas.get(i), javas.get(i + 1)).forEach(need -> host.out.println(name + ": " + need));
        }
        host.out.println(last);
        host.out.flush();
        boolean isWhole = true;
        for (int i = 0; i < steps.size(); i++) {
            isWhole &= uncompared.sayOld("release " + (i + 1), steps.get(i), releases.get(i));
        }
        int end = steps.size() - 1;
        uncompared.sayNew("release " + (end + 2), steps.get(end), releases.get(end + 1));
        return isWhole;
    }
}
