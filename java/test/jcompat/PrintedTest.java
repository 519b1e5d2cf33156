package jcompat;

import static org.junit.Assert.assertEquals;
import static org.junit.Assert.assertFalse;
import static org.junit.Assert.assertTrue;

import java.io.ByteArrayOutputStream;
import java.io.PrintStream;
import java.util.Arrays;
import java.util.List;
import java.util.stream.Collectors;
import java.util.stream.IntStream;

import org.junit.Before;
import org.junit.Rule;
import org.junit.Test;
import org.junit.rules.TemporaryFolder;

/** What a reader of a report sees first. */
public class PrintedTest {
    @Rule
    public final TemporaryFolder made = new TemporaryFolder();
    private Classes release;

    @Before
    public void makeRelease() throws Exception {
        release = Compiled.release(made.getRoot().toPath().resolve("release"), "A:public class A { }", "B:public interface B { }");
    }

    private List<String> print(String text, Request.Explain explain) throws Exception {
        Comparison comparison = Compiled.comparison(release, release, text);
        ByteArrayOutputStream printed = new ByteArrayOutputStream();
        new Printed(comparison.report, comparison.folding, new Words(release, release), explain, new PrintStream(printed, true, "UTF-8"))
                .print(comparison.report.all(), List.of(comparison.report.verdict, "more"));
        return Arrays.asList(printed.toString("UTF-8").split("\n"));
    }

    private static String lines(int count, String rest) {
        return IntStream.rangeClosed(1, count).mapToObj(i -> i + " H8 p/A m" + i + rest).collect(Collectors.joining("\n", "", "\n"));
    }

    @Test
    public void theVerdictStandsFirstAndTheFirstOfEachKindIsExplained() throws Exception {
        String text = lines(2, "()V invokevirtual java/lang/Object NoSuchMethodError") + "incompatible: 2 findings, 0 collisions, 0 notes\nwarning p/B run()V lost\n";
        assertEquals(Arrays.asList("incompatible: 2 findings, 0 collisions, 0 notes", "more", "in p: 2 H8", "1 H8 p/A m1()V invokevirtual java/lang/Object NoSuchMethodError",
                "    method void A.m1() is gone", "    a.m1();", "2 H8 p/A m2()V invokevirtual java/lang/Object NoSuchMethodError", "warning p/B run()V lost",
                "    interface B gives classes no method void run() to run any more",
                "    class Y implements B { }, without a method run of its own, and the library calls run() on it"), print(text, Request.Explain.FIRST));
        assertEquals(5, print(text, Request.Explain.NONE).size() - 1);
        assertEquals(12, print(text, Request.Explain.ALL).size());
    }

    @Test
    public void ofALongReportThereIsWhatIsMostOfIt() throws Exception {
        List<String> printed = print(lines(26, "()V invokevirtual java/lang/Object NoSuchMethodError") + "incompatible: 26 findings, 0 collisions, 0 notes\n", Request.Explain.NONE);
        assertEquals("    26 H8: a method can't be called as before, as p/A m1()V", printed.get(2));
        assertEquals("       most lines have: p/A (26 H8)", printed.get(3));
        assertEquals("incompatible: 26 findings, 0 collisions, 0 notes", printed.get(printed.size() - 1));
        assertFalse(print(lines(3, "()V invokevirtual java/lang/Object NoSuchMethodError") + "incompatible: 3 findings, 0 collisions, 0 notes\n", Request.Explain.NONE).stream()
                .anyMatch(line -> line.contains("most lines have")));
    }

    @Test
    public void gatesThatPassAreSaidBesideFindings() throws Exception {
        Comparison comparison = Compiled.comparison(release, release, "1 H1 p/A - class - NoClassDefFoundError\nincompatible: 1 findings, 0 collisions, 0 notes\n");
        comparison.options.addAll(List.of("--gate", "few"));
        comparison.accepted = java.util.Set.of();
        comparison.left = comparison.report.all();
        assertEquals("incompatible: 1 findings, 0 collisions, 0 notes", Verdict.of(comparison));
        assertEquals(List.of("the gates that are asked pass: few"), Verdict.beside(comparison));
        comparison.status = Status.BREAKS;
        assertTrue(Verdict.beside(comparison).isEmpty());
    }
}
