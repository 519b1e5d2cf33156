package jcompat;

import static org.junit.Assert.assertEquals;
import static org.junit.Assert.assertFalse;
import static org.junit.Assert.assertTrue;
import static org.junit.Assume.assumeTrue;

import java.nio.file.Path;
import java.util.Arrays;
import java.util.Collections;
import java.util.List;
import java.util.Map;
import java.util.Set;

import org.junit.Rule;
import org.junit.Test;
import org.junit.rules.TemporaryFolder;

/** Lines on calls: what they say, into what they are folded, and who counts them. */
public class CallsTest {
    private static final String NONE = "compatible: 0 findings, 0 collisions, 0 notes\n";
    @Rule
    public final TemporaryFolder made = new TemporaryFolder();

    private Classes release(String name, String... sources) throws Exception {
        return Compiled.release(made.getRoot().toPath().resolve(name), sources);
    }

    private static List<String> say(Classes before, Classes now, String line) {
        return new Words(before, now).safely(new Report(NONE + line).further.get(0));
    }

    @Test
    public void aReferenceTellsWhereTheMethodIs() throws Exception {
        String hidden = "H:class H { }";
        Classes before = release("before", "A:public class A extends H { public static String m() { return null; } }", hidden, "I:public interface I extends J { void draw(int n); }",
                "J:interface J { }");
        Classes now = release("now", "A:public class A extends H { }", "H:class H { public static String m() { return null; } }", "I:public interface I extends J { }",
                "J:interface J { void draw(int n); }");
        assertEquals(Arrays.asList("method String A.m() moved to H, which clients can't name: leave a method m in A that calls it", "takes(A::m);"),
                say(before, now, "call p/A m()Ljava/lang/String; reference"));
        assertEquals(Arrays.asList("method void I.draw(int) moved to J, which clients can't name: declare it in I too", "takes(i::draw);"),
                say(before, now, "call p/I draw(I)V reference"));
    }

    @Test
    public void lessAccessTellsOfTheInterface() throws Exception {
        Classes before = release("before", "A:public class A { }", "I:public interface I { void foo(int n); }", "B:public abstract class B implements J { }", "J:public interface J { }");
        Classes now = release("now", "A:public class A implements I { public void foo(int n) { } }", "I:public interface I { void foo(int n); }",
                "B:public abstract class B implements J { }", "J:public interface J { default void run() { } }");
        assertEquals(Arrays.asList("class A has void foo(int) from the interface I now: a subclass's own that isn't public can't be called through I; let another class implement that",
                "class Y extends A { void foo(int a) { ... } }   ((I) y).foo(0);"), say(before, now, "call p/A foo(I)V access"));
        assertTrue(say(before, now, "call p/B run()V access").get(0).endsWith("through J; give the method another name"));
    }

    @Test
    public void joinedClassesAreTold() throws Exception {
        String[] beside = {"B:class B { }", "A:public class A extends B { }", "C:public class C extends A { }"};
        Classes before = release("before", beside[0], beside[1], beside[2], "D:public class D extends B { }");
        Classes now = release("now", beside[0], beside[1], beside[2], "D:public class D { }");
        assertEquals(Arrays.asList("class D no longer extends B, which clients can't name: one that uses a D or another of its subclasses fails; keep it above both",
                "Object o = isSo ? d : a;   // A extends B"), say(before, now, "call p/D p/B joined"));
        assertEquals("Object o = isSo ? c : d;   // D extends B", say(before, now, "call p/C p/B joined").get(1));
        assertTrue(say(before, release("gone", "A:public class A { }"), "call p/A p/B joined").get(0).startsWith("class B, above A, is gone, which clients can't name: "));
    }

    @Test
    public void newValuesAreNamed() throws Exception {
        Classes before = release("before", "A:public enum A { X, Z }");
        assertEquals(Arrays.asList("enum A has the constant Y now: a switch over all that were there fails when it meets another; give new ones only to clients that ask for them",
                "int i = switch (a) { case X -> 1; case Z -> 1; };"), say(before, release("now", "A:public enum A { X, Y, Z }"), "call p/A - constants"));
        assertTrue(say(before, release("more", "A:public enum A { U, V, X, Z }"), "call p/A - constants").get(0).startsWith("enum A has 2 more constants, as U now: "));
        assumeTrue(Runtime.version().feature() >= 17);
        Path folder = made.getRoot().toPath();
        String[] classes = {"C:public final class C implements S { }", "D:public final class D implements S { }"};
        Classes one = Compiled.release(17, folder.resolve("one"), "S:public sealed interface S permits C { }", classes[0]);
        Classes two = Compiled.release(17, folder.resolve("two"), "S:public sealed interface S permits C, D { }", classes[0], classes[1]);
        Classes open = Compiled.release(17, folder.resolve("open"), "S:public interface S { }", classes[0]);
        assertEquals(Arrays.asList("S permits D now: a switch over all that were there fails when it meets an object of another; let a new class extend one that was permitted",
                "int i = switch (s) { case C v -> 1; };"), say(one, two, "call p/S - constants"));
        assertTrue(say(one, open, "call p/S - constants").get(0).startsWith("S is no longer sealed: "));
    }

    @Test
    public void causesAreToldOnce() throws Exception {
        Classes one = release("one", "A:public class A { }", "B:public class B extends A { }");
        Report report = new Report("1 H6 p/A run()V override - IncompatibleClassChangeError\nincompatible: 1 findings, 0 collisions, 0 notes\n"
                + "call p/A draw()V reference\ncall p/A run()V reference\ncall p/B draw()V reference\ncall p/B draw()V access\ncall p/B - constants\n");
        Folding folding = new Folding(report.all(), one);
        Map<Line, List<Line>> below = folding.below(report.all());
        assertEquals(Arrays.asList("1 H6 p/A run()V override - IncompatibleClassChangeError", "call p/A draw()V reference", "call p/B draw()V access", "call p/B - constants"),
                Arrays.asList(below.keySet().stream().map(Line::toString).toArray()));
        assertEquals(" (and 1 line on calls)", folding.folded(report.lines.get(0), below.get(report.lines.get(0))));
        assertEquals(" (and through 1 subclass)", folding.folded(report.further.get(0), below.get(report.further.get(0))));
    }

    @Test
    public void theGateAsksForAllThreeParts() {
        List<String> asked = Arrays.asList("--gate", "calls", "--warn", "--dropped", "--calls");
        assertEquals(0, Gates.status(asked, Collections.emptyList()));
        assertEquals(1, Gates.status(asked.subList(0, 4), Collections.emptyList()));
        for (String line : Arrays.asList("call p/A - constants", "warning p/A draw()V lost", "dropped p/A p/I")) {
            assertEquals(1, Gates.status(asked, new Report(NONE + line).all()));
            assertEquals(0, Gates.status(Collections.emptyList(), new Report(NONE + line).all()));
        }
        assertEquals(0, Gates.status(asked, new Report("1 H1 p/A - class - NoClassDefFoundError\nincompatible: 1 findings, 0 collisions, 0 notes\n").all()));
    }

    @Test
    public void oneIsCountedAndJudged() throws Exception {
        Classes one = release("counted", "A:public enum A { X }");
        Comparison comparison = Compiled.comparison(one, release("grown", "A:public enum A { X, Y }"), NONE + "call p/A - constants\n");
        comparison.options.add("--calls");
        assertEquals("0 warnings, 0 dropped interfaces, 1 lines on calls", Printed.counts(comparison.report.further, comparison.options));
        assertEquals("call", comparison.report.further.get(0).kind());
        Due due = new Due("1.4.2", null, List.of(comparison), true);
        assertEquals("due: 2.0.0, a major step from 1.4.2: 1 warning, dropped interface or line on calls, as call p/A - constants", due.lines().get(0));
    }

    @Test
    public void thePageHasThem() throws Exception {
        Classes one = release("page", "A:public enum A { X }");
        Report report = new Report(NONE + "call p/A - constants\n");
        String page = new Page(new PageInput(report, one, release("page2", "A:public enum A { X, Y }")), null, "p").html();
        assertTrue(page.contains("<h1 class=may>Links; 1 call may fail</h1>"));
        assertTrue(page.contains("<h2 id=calls-of>Calls <small>1</small></h2>"));
        assertTrue(page.contains("<b>constants</b> enum A has the constant Y now"));
        assertTrue(page.contains("<details class=rule id=constants_added>"));
        assertTrue(page.contains("a switch that meets what it doesn't list ends with IncompatibleClassChangeError"));
        PageInput accepted = new PageInput(report, one, one);
        accepted.accept(Set.of("call p/A - constants"));
        assertFalse(new Page(accepted, null, "p").html().contains("may fail</h1>"));
    }
}
