package jcompat;

import java.io.PrintStream;
import java.util.List;
import java.util.Map;

/** Prints for people which clients break: the counts, what most clients lose, what each loses, and a table of all of them. */
final class AffectedPrinted {
    private static final int MOST_SPOTS = 20;
    /** So many things that one client loses are printed. */
    private static final int MOST_OF_ONE = 10;
    private static final String ROW = "%9s %8s %6s %6s %9s %8s  %s%n";

    private final AffectedReport report;
    private final PrintStream out;

    AffectedPrinted(AffectedReport report, PrintStream out) {
        this.report = report;
        this.out = out;
    }

    void print() {
        out.println(report.counts());
        long partly = report.partlyAsked();
        if (partly > 0) {
            out.println("of " + partly + (partly == 1 ? " client" : " clients") + " not all is asked: classes are left out or missing, as the table says");
        }
        printSpots();
        report.broken().forEach(this::printClient);
        if (!report.clients().isEmpty()) {
            out.printf(ROW, "", "classes", "uses", "lost", "left out", "missing", "client");
            report.clients().forEach(this::printRow);
        }
        if (!report.packages().isEmpty()) {
            out.println("packages that break: " + String.join(" ", report.packages()));
        }
        if (!report.clients().isEmpty()) {
            out.println(report.counts());
        }
    }

    /** What is lost in several clients. */
    private void printSpots() {
        Map<String, Integer> spots = report.spots();
        spots.values().removeIf(count -> count < 2);
        if (!spots.isEmpty()) {
            out.println("what several clients lose:");
            spots.entrySet().stream().limit(MOST_SPOTS).forEach(each -> out.printf("%6d  %s%n", each.getValue(), each.getKey()));
            printRest(spots.size(), MOST_SPOTS, "        ");
        }
    }

    private void printClient(Client client) {
        List<Loss> lost = client.lost();
        out.println(client.name + ":");
        lost.stream().limit(MOST_OF_ONE).forEach(this::printLoss);
        printRest(lost.size(), MOST_OF_ONE, "    ");
    }

    private void printLoss(Loss loss) {
        out.println("    " + loss.textWithPlace());
        if (loss.words != null) {
            out.println("        " + loss.words);
        }
    }

    private void printRest(int all, int most, String before) {
        if (all > most) {
            out.println(before + "and " + (all - most) + " others, which --json and --page have");
        }
    }

    private void printRow(Client client) {
        if (client.isAsked()) {
            out.printf(ROW, client.isBroken() ? "breaks" : "keeps", client.own.size(), client.uses.size(), client.lost().size(), client.leftOut(), client.missing.size(), client.name);
        } else {
            out.printf(ROW, "not asked", "-", "-", "-", client.leftOut(), "-", client.name + ": " + client.refusal);
        }
    }
}
