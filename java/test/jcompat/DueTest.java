package jcompat;

import static org.junit.Assert.assertEquals;
import static org.junit.Assert.assertFalse;
import static org.junit.Assert.assertNull;
import static org.junit.Assert.assertTrue;
import static org.junit.Assert.fail;

import java.nio.file.Path;
import java.util.Arrays;
import java.util.List;
import java.util.Map;
import java.util.stream.Collectors;

import org.junit.Rule;
import org.junit.Test;
import org.junit.rules.TemporaryFolder;

import jcompat.SemanticVersion.Step;

/** What was added, and which number is due for it. */
public class DueTest {
    private static final String NONE = "compatible: 0 findings, 0 collisions, 0 notes\n";
    private static final String WARNED = NONE + "warning p/A draw()V defaults\n";
    private static final String FOUND = "1 H1 p/A - class - NoClassDefFoundError\nincompatible: 1 findings, 0 collisions, 0 notes\n";
    private static final String COLLIDES = "1 Final p/A close()V override - IncompatibleClassChangeError\ncompatible: 0 findings, 1 collisions, 0 notes\n";
    @Rule
    public final TemporaryFolder made = new TemporaryFolder();

    private Classes release(String name, String... sources) throws Exception {
        Path folder = made.getRoot().toPath().resolve(name);
        return Compiled.release(folder, sources);
    }

    @Test
    public void whatClientsCanNameNowIsListed() throws Exception {
        Classes before = release("before", "A:public class A { public void draw() { } protected void clean() { } public void old() { } }", "B:public class B extends A { }",
                "C:class C { public void run() { } }", "F:public final class F { }");
        Classes now = release("now", "A:public class A { public void draw() { } public void clean() { } @Deprecated public void old() { } public void fill(int n) { } "
                + "public String toString() { return null; } private void hide() { } void near() { } }", "B:public class B extends A { public B() { } protected B(int n) { } }",
                "C:public class C { public void run() { } }", "F:public final class F { protected void none() { } static class Hidden { } }");
        Additions additions = new Additions(before, now);
        assertEquals(Arrays.asList("opened p/A clean()V (and through 1 subclass)", "added p/A fill(I)V (and through 1 subclass)", "deprecated p/A old()V", "added p/B <init>(I)V",
                "added p/C"), additions.all.stream().map(Added::printed).collect(Collectors.toList()));
        assertEquals("method void A.fill(int) was added", additions.all.get(1).words(now));
        assertEquals("constructor B(int) was added", additions.all.get(3).words(now));
        assertEquals("class C was added", additions.all.get(4).words(now));
        assertEquals("added in p: 1 classes, 3 members, 1 deprecated", additions.lines(Request.Explain.NONE).get(0));
        assertEquals(0, new Additions(now, now).all.size());
    }

    @Test
    public void whatANewClassAboveGivesIsOfThatClass() throws Exception {
        Classes before = release("before", "A:public class A { }", "I:interface I { }");
        Classes now = release("now", "A:public class A extends B { }", "B:public class B { public void draw() { } }", "I:interface I { int SIZE = 1; static void run() { } }");
        assertEquals(Arrays.asList("added p/B"), new Additions(before, now).all.stream().map(Added::text).collect(Collectors.toList()));
        Classes hidden = release("hidden", "A:public class A extends B implements I { }", "B:class B { public void draw() { } }", "I:interface I { int SIZE = 1; static void run() { } }");
        assertEquals(Arrays.asList("added p/A draw()V", "added p/A SIZE:I"), new Additions(before, hidden).all.stream().map(Added::text).collect(Collectors.toList()));
    }

    private static List<String> due(String from, String to, boolean isStrict, Comparison comparison) throws Exception {
        return new Due(from, to, List.of(comparison), isStrict).lines();
    }

    @Test
    public void theNumberIsDueForWhatWasFound() throws Exception {
        Classes one = release("one", "A:public class A { }");
        Classes more = release("more", "A:public class A { public void fill() { } }");
        assertEquals(List.of("due: 1.4.3, a patch step from 1.4.2: nothing that asks for more"), due("1.4.2", null, false, Compiled.comparison(one, one, NONE)));
        List<String> lines = due("1.4.2", "1.4.3", false, Compiled.comparison(one, more, NONE));
        assertEquals("due: 1.5.0, a minor step from 1.4.2: 1 addition, as p/A fill()V", lines.get(0));
        assertTrue(lines.get(1).startsWith("    the gate version asks for 1.4.3: "));
        assertEquals("    1.4.3, the version of the new release, is too small", lines.get(2));
        assertEquals("due: 1.5.0, a minor step from 1.4.2: 1 collision, as Final p/A close()V override - IncompatibleClassChangeError",
                due("1.4.2", null, false, Compiled.comparison(one, one, COLLIDES)).get(0));
        assertEquals(Arrays.asList("due: 2.0.0, a major step from 1.4.2: 1 finding, as H1 p/A - class - NoClassDefFoundError", "    2.0.0, the version of the new release, is large enough"),
                due("1.4.2", "2.0.0", false, Compiled.comparison(one, more, FOUND)));
        assertEquals("due: 0.5.0, a major step from 0.4.2: 1 finding, as H1 p/A - class - NoClassDefFoundError", due("0.4.2", null, false, Compiled.comparison(one, one, FOUND)).get(0));
        assertEquals("due: a minor step: 1 addition, as p/A fill()V", due(null, null, false, Compiled.comparison(one, more, NONE)).get(0));
    }

    @Test
    public void warningsAskForMoreWhereTheyAreToldTo() throws Exception {
        Classes one = release("one", "A:public interface A { }");
        Classes more = release("more", "A:public interface A { void draw(); }");
        List<String> lines = due("1.4.2", null, false, Compiled.comparison(one, more, WARNED));
        assertEquals("due: 1.5.0, a minor step from 1.4.2: 1 addition, as p/A draw()V", lines.get(0));
        assertEquals("    with --strict it is 2.0.0: 1 warnings, dropped interfaces or lines on calls", lines.get(2));
        assertEquals("due: 2.0.0, a major step from 1.4.2: 1 warning, dropped interface or line on calls, as warning p/A draw()V defaults",
                due("1.4.2", null, true, Compiled.comparison(one, more, WARNED)).get(0));
        Comparison lacking = Compiled.comparison(one, one, NONE);
        lacking.isWhole = false;
        assertTrue(due("1.4.2", null, false, lacking).get(0).contains(" at least, since not all was compared"));
    }

    private static String page(Map<?, ?> due, Classes release) throws Exception {
        PageInput input = new PageInput(new Report(NONE), release, release);
        input.due = due;
        return new Page(input, null, "p").html();
    }

    @Test
    public void thePageSaysWhatIsDue() throws Exception {
        Classes one = release("one", "A:public class A { }");
        Classes more = release("more", "A:public class A { public void fill() { } }");
        Due due = new Due("1.4.2", null, List.of(Compiled.comparison(one, more, NONE)), false);
        String said = "Due by Semantic Versioning: <strong>1.5.0</strong>, a minor step: 1 addition, as p/A fill()V. The gate <code>version</code> asks for 1.4.3: ";
        assertTrue(page(due.map(), one).contains(said));
        // as a document has it
        assertTrue(page((Map<?, ?>) Json.read(Json.write(due.map())), one).contains(said));
        assertTrue(page(new Due(null, null, List.of(Compiled.comparison(one, one, NONE)), false).map(), one).contains("Due by Semantic Versioning: <strong>a patch step</strong>: nothing asks for more.</p>"));
        assertFalse(page(null, one).contains("Due by"));
    }

    @Test
    public void stepsAreThoseOfTheGate() throws Exception {
        assertNull(SemanticVersion.of("1.5"));
        assertNull(SemanticVersion.of("01.5.0"));
        assertEquals("1.0.0", SemanticVersion.of("1.0.0-rc.1").next(Step.MAJOR));
        assertEquals("0.4.0", SemanticVersion.of("0.3.7").next(Step.MINOR));
        assertEquals("0.3.8", SemanticVersion.of("0.3.7").next(Step.PATCH));
        assertEquals("18446744073709551616.0.0", SemanticVersion.of("18446744073709551615.2.0").next(Step.MAJOR));
        assertEquals(Step.MAJOR, SemanticVersion.of("0.3.7").to(SemanticVersion.of("0.4.0")));
        assertEquals(Step.MINOR, SemanticVersion.of("1.3.7").to(SemanticVersion.of("1.4.0")));
        assertEquals(Step.PATCH, SemanticVersion.of("1.3.7").to(SemanticVersion.of("1.3.8")));
        assertEquals(Step.MAJOR, SemanticVersion.of("1.3.7-rc").to(SemanticVersion.of("1.3.7")));
        Classes one = release("one", "A:public class A { }");
        try {
            due("1.5", null, false, Compiled.comparison(one, one, NONE));
            fail();
        } catch (Stop stop) {
            assertEquals(Stop.NOT_RUN, stop.status);
        }
    }
}
