package jcompat;

import java.util.ArrayList;
import java.util.List;

/** The verdict in words: that of the program, and what accepted breaks and gates make of it. */
final class Verdict {
    private Verdict() {
    }

    /** As <code>compatible but for 3 accepted</code>, where all findings are accepted; else the program's. */
    static String of(String verdict, long findings, boolean isLeft) {
        return verdict.startsWith("incompatible") && !isLeft ? "compatible but for " + findings + " accepted (" + verdict + ")" : verdict;
    }

    static String of(Comparison comparison) {
        long findings = comparison.report.lines.stream().filter(Line::isFinding).count();
        return of(comparison.report.verdict, findings, comparison.left.stream().anyMatch(Line::isFinding));
    }

    /** What else has to be said beside it. */
    static List<String> beside(Comparison comparison) {
        List<String> said = new ArrayList<>();
        if (comparison.left.stream().anyMatch(Line::isFinding)) {
            if (!comparison.accepted.isEmpty()) {
                said.add(comparison.accepted.size() + " of these lines are accepted");
            }
            if (comparison.status == Status.GOOD) {
                said.add("the gates that are asked pass: " + String.join(", ", Gates.asked(comparison.options)));
            }
        }
        return said;
    }
}
