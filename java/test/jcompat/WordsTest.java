package jcompat;

import static org.junit.Assert.assertEquals;
import static org.junit.Assert.assertTrue;

import java.nio.charset.StandardCharsets;
import java.nio.file.Files;
import java.nio.file.Path;
import java.util.ArrayList;
import java.util.Arrays;
import java.util.Collections;
import java.util.List;
import java.util.Set;
import java.util.stream.Collectors;

import javax.tools.ToolProvider;

import org.junit.Rule;
import org.junit.Test;
import org.junit.rules.TemporaryFolder;

public class WordsTest {
    @Rule
    public final TemporaryFolder made = new TemporaryFolder();

    /** A release of one source, in which each type is package p's. */
    private Classes release(String name, String source) throws Exception {
        Path folder = made.newFolder(name).toPath();
        List<String> words = new ArrayList<>(Arrays.asList("--release", "11", "-d", folder.toString()));
        for (String type : source.split("(?=public (?:class|interface|@interface) )")) {
            String simple = type.replaceFirst("(?s)public (?:abstract |final )?(?:class|@?interface) (\\w+).*", "$1");
            Path file = made.newFolder(name + "-" + simple).toPath().resolve(simple + ".java");
            Files.write(file, ("package p; " + type).getBytes(StandardCharsets.UTF_8));
            words.add(file.toString());
        }
        assertEquals(0, ToolProvider.getSystemJavaCompiler().run(null, null, null, words.toArray(new String[0])));
        Set<String> paths = Folders.classes(folder);
        return new Classes(folder, paths, folder);
    }

    private static String say(Classes before, Classes now, String line) {
        return both(before, now, line).get(0);
    }

    private static String client(Classes before, Classes now, String line) {
        return both(before, now, line).get(1);
    }

    private static List<String> both(Classes before, Classes now, String line) {
        return new Words(before, now).say(new Report(line + "\ncompatible: 0 findings, 0 collisions, 0 notes").all().get(0));
    }

    @Test
    public void warningsTellWhatWasAdded() throws Exception {
        Classes none = release("none", "public interface I { }");
        Classes opened = release("opened", "public interface I { void draw(); }");
        Classes given = release("given", "public interface I { default void draw() { } }");
        String line = "warning p/I draw()V defaults";
        assertEquals("abstract method void draw() was added: classes that implement I without it fail when it is called", say(none, opened, line));
        assertTrue(say(none, given, line).startsWith("default method void draw() was added: classes that implement I and get one from elsewhere too"));
        assertEquals("the default of void draw() was removed: classes that implement I without it fail when it is called", say(given, opened, line));
        assertTrue(say(opened, given, line).startsWith("void draw() has a default now: classes that implement I and get one from elsewhere too"));
        assertEquals("I no longer gives classes void draw()", say(opened, none, line));
    }

    @Test
    public void anInterfaceThatClientsCantNameIsDroppedByWhatTakesIt() throws Exception {
        Classes before = release("before", "public class C implements I, J { public void draw() { } } interface I { void draw(); } public interface J { void draw(); }");
        Classes now = release("now", "public class C { public void draw() { } } interface I { void draw(); } public interface J { void draw(); }");
        assertEquals("class C no longer implements I", say(before, now, "dropped p/C p/I"));
        assertEquals("the.takes(c), where takes(I)", client(before, now, "dropped p/C p/I"));
        assertEquals("J i = c;   i.draw();", client(before, now, "dropped p/C p/J"));
    }

    @Test
    public void aWarningHasNoClientThatNobodyCouldHold() throws Exception {
        Classes none = release("none", "public interface I { }");
        Classes opened = release("opened", "public interface I { void draw(); }");
        String line = "warning p/I draw()V defaults";
        assertEquals("class Y implements I { }, without a method draw of its own, and the library calls draw() on it", client(none, opened, line));
        assertEquals("class Y implements I { }, without a method draw of its own, and draw() is called on it", client(opened, none, line));
        Classes own = release("own", "public interface J { } public interface I extends J { void draw(); }");
        Classes above = release("above", "public interface J { void draw(); } public interface I extends J { }");
        assertEquals("void draw() moved to the superinterface J: no call breaks", say(own, above, line));
        assertEquals("", client(own, above, line));
        assertTrue(say(above, own, line).startsWith("I gives classes void draw() of I, and gave that of J"));
        Classes given = release("given", "public interface J { default void draw() { } } public interface I extends J { }");
        Classes moved = release("moved", "public interface J { } public interface I extends J { default void draw() { } }");
        assertTrue(say(moved, given, line).startsWith("I gives classes void draw() of J, and gave that of I"));
    }

    @Test
    public void anElementOfAnAnnotationIsNotImplemented() throws Exception {
        Classes none = release("none", "public @interface I { }");
        Classes plain = release("plain", "public @interface I { String text(); }");
        Classes given = release("given", "public @interface I { String text() default \"\"; }");
        String line = "warning p/I text()Ljava/lang/String; defaults";
        assertEquals("element String text() was added to the annotation I, with a default: breaks only classes that implement the annotation themselves", say(none, given, line));
        assertTrue(say(none, plain, line).contains("without a default"));
    }

    @Test
    public void findingsTellWhatThereIsInstead() throws Exception {
        Classes before = release("before", "public class A { public void draw(Number number) { } public int size; public static void run() { } }");
        Classes now = release("now", "public class A { public boolean draw(Object number) { return true; } public final int size = 1; public void run() { } }");
        assertEquals("method void A.draw(Number) is gone; there is boolean draw(Object)",
                say(before, now, "1 H8 p/A draw(Ljava/lang/Number;)V invokevirtual java/lang/Object NoSuchMethodError"));
        assertEquals("field int A.size is final now", say(before, now, "1 H7 p/A size:I putfield java/lang/Object IllegalAccessError"));
        assertEquals("method void A.run() isn't static any more", say(before, now, "1 H8 p/A run()V invokestatic java/lang/Object IncompatibleClassChangeError"));
    }

    @Test
    public void aNewerLineIsSaidWithoutItsWords() throws Exception {
        Classes one = release("one", "public class A { }");
        Line line = new Report("1 H99 p/A - class - NoClassDefFoundError\ncompatible: 0 findings, 0 collisions, 0 notes").all().get(0);
        assertEquals(Arrays.asList("p.A: a client ends with NoClassDefFoundError", "H99 p/A - class - NoClassDefFoundError"), new Words(one, one).safely(line));
    }

    @Test
    public void aWarningThatAFindingSaysIsFoldedIntoIt() throws Exception {
        Classes one = release("folded", "public class A { } public class B extends A { }");
        Report report = new Report("1 H8 p/A draw()V invokevirtual java/lang/Object NoSuchMethodError\n2 H8 p/B draw()V invokevirtual java/lang/Object NoSuchMethodError\n"
                + "incompatible: 2 findings, 0 collisions, 0 notes\nwarning p/A draw()V lost\nwarning p/B draw()V lost\nwarning p/B run()V lost\n");
        Folding folding = new Folding(report.all(), one);
        Line first = report.lines.get(0);
        assertEquals(Arrays.asList(1, 5), folding.below(report.all()).keySet().stream().map(line -> line.number).collect(Collectors.toList()));
        assertEquals(" (and through 1 subclass, and 2 warnings)", folding.folded(first, folding.below(report.all()).get(first)));
        assertEquals(Collections.emptyList(), folding.below(report.all()).keySet().stream().filter(line -> line.rule.equals("H7")).collect(Collectors.toList()));
        assertEquals(2, folding.repeated(report.all()));
    }

    @Test
    public void aWarningOfAMethodThatIsGoneIsFoldedWhateverItsKind() throws Exception {
        Classes one = release("gone", "public interface I { }");
        Report report = new Report("1 H9 p/I draw()V inherit - NoSuchMethodError\n2 H8 p/I run()V invokeinterface java/lang/Object IncompatibleClassChangeError\n"
                + "incompatible: 2 findings, 0 collisions, 0 notes\nwarning p/I draw()V defaults\nwarning p/I run()V defaults\n");
        Folding folding = new Folding(report.all(), one);
        assertEquals(report.lines.get(0), folding.top(report.further.get(0)));
        assertEquals(report.further.get(1), folding.top(report.further.get(1)));
    }
}
