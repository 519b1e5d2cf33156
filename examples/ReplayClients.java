import java.io.File;
import java.io.IOException;
import java.io.StringWriter;
import java.io.UncheckedIOException;
import java.io.Writer;
import java.nio.file.Files;
import java.nio.file.Path;
import java.util.ArrayList;
import java.util.HashSet;
import java.util.List;
import java.util.Map;
import java.util.Set;
import java.util.TreeMap;
import java.util.TreeSet;
import java.util.stream.Collectors;
import java.util.stream.Stream;
import javax.tools.JavaCompiler;
import javax.tools.StandardJavaFileManager;
import javax.tools.ToolProvider;

/**
 * Replays the clients of <code>examples/rules</code>: <code>java ReplayClients.java RULES PLATFORM PAGE MADE [PROGRAM]</code>, where RULES
 * is that folder, PLATFORM a folder of class files for the checks, PAGE the document that shows the clients, and MADE an empty folder.
 *
 * <p>Each folder of RULES has the Java sources of an old and a new release and of a client, which is compiled against the old one.
 * <code>app.Main</code> of the client is run beside each release, by the <code>java</code> of this machine. With the old one it ends well. With
 * the new one it ends with the error that the file <code>message</code> has and, unless it is a verdict alone, the file <code>report</code>
 * names; where the file <code>prints</code> stands in the place of <code>message</code>, it ends well with both and prints that; where the file
 * <code>recompiled</code> stands too, compiling it against the new release ends with that error. Where PROGRAM
 * is given, its report of the two releases is the file <code>report</code>, followed with <code>--warn</code> by the file
 * <code>warnings</code>, with <code>--signatures</code> by the file <code>signatures</code>, with <code>--dropped</code> by the file
 * <code>dropped</code>, and with <code>--calls</code> by the file <code>calls</code>, where these stand. Sources in <code>platform</code>, of classes of java.base that the
 * releases name above themselves, are compiled to go beside the class files of PLATFORM. Sources in <code>needs</code> are there when the new release is
 * compiled, file by file, and not when the client is run. Other files of a release than sources stand beside its classes.
 *
 * <p>A release with a <code>module-info.java</code> stands on the module path, and the client on the class path; the report is that with
 * <code>--modular</code> then. Where that has a line, the file <code>links</code> has what <code>jcompat link --modular</code> says of the first witness over the
 * old and then over the new release, in which <code>Replay.java</code> finds the errors too. An old release without such a file, beside a new one that
 * has it, is compiled with that and the client, as if all were one module: there alone a compiler lets a sealed class permit a class of another package.
 *
 * <p>PAGE links each folder, and each line of a block of it is a line of these files. There is a line of output for each folder, in the order
 * of the rules, and a last one with the numbers. The status is 1 where something isn't so.
 */
public final class ReplayClients {
    /** The version of Java by which the files <code>message</code> were recorded. Of others, the class of the error is compared alone. */
    private static final int RECORDED = 17;

    /** The rules of findings and collisions, and the kinds of notes. */
    private static final Set<String> RULES =
            Set.of("H1", "H2", "H3", "H4", "H5", "H6", "H7", "H8", "H9", "Constant", "Capture", "Final", "unloadable", "constant");

    /** The name of a module's file, without its ending. */
    private static final String MODULE = "module-info";

    /** What replays witnesses. */
    private static final String REPLAY = "examples/Replay.java";

    private final Path platform;
    private final Path made;
    private final List<String> program;

    private ReplayClients(Path platform, Path made, List<String> program) {
        this.platform = platform;
        this.made = made;
        this.program = program;
    }

    public static void main(String[] words) throws IOException {
        List<Path> examples = examples(Path.of(words[0]));
        ReplayClients replay = new ReplayClients(Path.of(words[1]), Path.of(words[3]), List.of(words).subList(4, words.length));
        List<String> faults = new ArrayList<>();
        examples.parallelStream().map(replay::outcome).forEachOrdered(line -> {
            System.out.println(line);
            if (!line.startsWith("ok ")) {
                faults.add(line);
            }
        });
        List<String> lacks = new ArrayList<>();
        missing(examples).forEach(rule -> lacks.add("FAILED no example has the rule " + rule));
        strangers(Path.of(words[2]), Path.of(words[0])).forEach(line -> lacks.add("FAILED no example has the line: " + line));
        String page = Files.readString(Path.of(words[2]));
        examples.stream().filter(example -> !page.contains("/" + example.getFileName() + ")"))
                .forEach(example -> lacks.add("FAILED no section links " + example.getFileName()));
        lacks.forEach(System.out::println);
        faults.addAll(lacks);
        System.out.printf("replayed: %d clients, %d faults%s%n", examples.size(), faults.size(),
                replay.program.isEmpty() ? ", reports not compared" : "");
        System.exit(faults.isEmpty() ? 0 : 1);
    }

    /** The folders of the examples, in the order of their rules; those whose report has none come first. */
    private static List<Path> examples(Path rules) throws IOException {
        Map<String, Path> byRule = new TreeMap<>();
        try (Stream<Path> folders = Files.list(rules)) {
            for (Path folder : (Iterable<Path>) folders::iterator) {
                byRule.put(String.join(" ", rules(folder)) + " " + folder.getFileName(), folder);
            }
        }
        return new ArrayList<>(byRule.values());
    }

    /** The rules of the findings and collisions of an example's report, and the kinds of its notes, each once. */
    private static List<String> rules(Path example) throws IOException {
        return Files.readAllLines(example.resolve("report")).stream().map(line -> line.split(" ")[1]).filter(RULES::contains).distinct()
                .collect(Collectors.toList());
    }

    /** The line that says how it went with an example. */
    private String outcome(Path example) {
        try {
            Example built = new Example(example, made.resolve(example.getFileName()));
            built.compile();
            String said = built.replayed();
            if (!program.isEmpty()) {
                built.compareReport(platform, program);
            }
            String rules = rules(example).isEmpty() ? "no finding" : String.join(" ", rules(example));
            return "ok " + rules + " " + example.getFileName() + ": " + said;
        } catch (Fault fault) {
            return "FAILED " + example.getFileName() + ": " + fault.getMessage();
        } catch (IOException failure) {
            throw new UncheckedIOException(failure);
        }
    }

    /** The rules, and the kinds of notes, that no report has. */
    private static Set<String> missing(List<Path> examples) throws IOException {
        Set<String> missing = new TreeSet<>(RULES);
        for (Path example : examples) {
            missing.removeAll(rules(example));
        }
        return missing;
    }

    /** The lines in blocks of the page that are in no file of the examples. */
    private static List<String> strangers(Path page, Path rules) throws IOException {
        Set<String> known = new HashSet<>();
        for (Path file : files(rules, "")) {
            Files.readAllLines(file).forEach(line -> known.add(line.strip()));
        }
        List<String> strangers = new ArrayList<>();
        boolean inBlock = false;
        for (String line : Files.readAllLines(page)) {
            if (line.startsWith("```")) {
                inBlock = !inBlock;
            } else if (inBlock && !known.contains(line.strip())) {
                strangers.add(line);
            }
        }
        return strangers;
    }

    private static List<Path> files(Path folder, String end) throws IOException {
        if (!Files.isDirectory(folder)) {
            return List.of();
        }
        try (Stream<Path> files = Files.walk(folder)) {
            return files.filter(Files::isRegularFile).filter(file -> file.toString().endsWith(end)).sorted().collect(Collectors.toList());
        }
    }

    /** What isn't as it has to be. */
    private static final class Fault extends Exception {
        private static final long serialVersionUID = 1;

        Fault(String message) {
            super(message);
        }
    }

    /** A folder of sources, and the folder into which they are compiled. */
    private static final class Example {
        private final Path sources;
        private final Path classes;

        Example(Path sources, Path classes) {
            this.sources = sources;
            this.classes = classes;
        }

        /** Whether the release has a module's file, in sources. */
        private boolean isModule(String release) {
            return Files.exists(sources.resolve(release).resolve(MODULE + ".java"));
        }

        private boolean isModular() {
            return isModule("old") || isModule("new");
        }

        void compile() throws IOException, Fault {
            addResources("old");
            addResources("new");
            if (isModule("new") && !isModule("old")) {
                for (String part : List.of("old", "new", "client")) {
                    compileInOneModule(part);
                }
                return;
            }
            compile("old", files(sources.resolve("old"), ".java"), "old");
            List<Path> needs = files(sources.resolve("needs"), ".java");
            List<Path> after = files(sources.resolve("new"), ".java");
            if (needs.isEmpty()) {
                compile("new", after, "new");
            } else {
                compile("needs", needs, "needs");
                for (Path source : after) {
                    compile("new", List.of(source), "needs");
                }
            }
            compile("client", files(sources.resolve("client"), ".java"), "old");
        }

        /** Puts the files of a release that are no sources into the folder of its classes. */
        private void addResources(String release) throws IOException {
            copy(sources.resolve(release), classes.resolve(release));
        }

        /** Copies the files of a folder that are no sources. */
        private static void copy(Path from, Path to) throws IOException {
            for (Path file : files(from, "")) {
                if (!file.toString().endsWith(".java")) {
                    Path place = to.resolve(from.relativize(file).toString());
                    Files.createDirectories(place.getParent());
                    Files.copy(file, place);
                }
            }
        }

        /** Compiles a part, with the client or the old release and the new one's module's file beside it. */
        private void compileInOneModule(String part) throws IOException, Fault {
            String other = part.equals("client") ? "old" : "client";
            List<Path> all = new ArrayList<>(files(sources.resolve(part), ".java"));
            all.addAll(files(sources.resolve(other), ".java"));
            if (!isModule(part)) {
                all.add(sources.resolve("new").resolve(MODULE + ".java"));
            }
            compile(part, all, part);
            for (Path file : files(classes.resolve(part), ".class")) {
                String source = classes.resolve(part).relativize(file).toString().replaceAll("\\.class$", ".java");
                if (!Files.exists(sources.resolve(part).resolve(source))) {
                    Files.delete(file);
                }
            }
        }

        private void compile(String to, List<Path> from, String beside) throws IOException, Fault {
            if (!isCompiled(null, to, from, beside)) {
                throw new Fault("the sources of " + to + " don't compile");
            }
        }

        private boolean isCompiled(Writer said, String to, List<Path> from, String beside) throws IOException {
            return isCompiled(said, to, from, List.of("--release", "17", "-cp", classes.resolve(beside).toString()));
        }

        private boolean isCompiled(Writer said, String to, List<Path> from, List<String> more) throws IOException {
            JavaCompiler compiler = ToolProvider.getSystemJavaCompiler();
            List<String> options = new ArrayList<>(List.of("-proc:none", "-d", Files.createDirectories(classes.resolve(to)).toString()));
            options.addAll(more);
            try (StandardJavaFileManager manager = compiler.getStandardFileManager(null, null, null)) {
                return compiler.getTask(said, manager, null, options, null, manager.getJavaFileObjectsFromPaths(from)).call();
            }
        }

        /** Compiles the client against the new release, where that is to fail, and gives what the compiler says then. */
        private String recompiled() throws IOException, Fault {
            Path message = sources.resolve("recompiled");
            if (!Files.exists(message)) {
                return "";
            }
            StringWriter said = new StringWriter();
            Path client = sources.resolve("client").toAbsolutePath();
            if (isCompiled(said, "again", files(client, ".java"), "new")) {
                throw new Fault("the client compiles against the new release");
            }
            String found = said.toString().lines().findFirst().orElse("").replace(client + File.separator, "");
            if (Runtime.version().feature() == RECORDED) {
                same("against the new release it ends with", Files.readString(message).strip(), found);
            }
            return ", and compiled again: " + found;
        }

        /** Runs the client beside both releases, and gives what it said beside the new one. */
        String replayed() throws IOException, Fault {
            Output before = runMain("old");
            if (before.status != 0 || !before.error.isEmpty()) {
                throw new Fault("with the old release it ended with the status " + before.status + ": " + before.error);
            }
            Output after = runMain("new");
            Path prints = sources.resolve("prints");
            if (Files.exists(prints)) {
                same("with the old release it prints", Files.readString(prints), before.text);
                same("with the new release it prints", Files.readString(prints), after.text);
                return "prints " + after.text.strip() + recompiled();
            }
            String wanted = Files.readString(sources.resolve("message")).strip();
            String found = after.error.lines().findFirst().orElse("no error");
            String thread = "Exception in thread \"main\" ";
            same("with the new release it ends with", judged(thread + wanted), judged(found));
            String error = wanted.split(":")[0].replace("java.lang.", " ");
            if (!rules(sources).isEmpty() && Files.readAllLines(sources.resolve("report")).stream().noneMatch(line -> line.endsWith(error))) {
                throw new Fault("no line of the report has the error" + error);
            }
            return found.substring(thread.length());
        }

        /** The first line of an error, or its class alone where another version of Java says it. */
        private static String judged(String line) {
            int colon = line.indexOf(':');
            // a module without a name has a number that differs from run to run
            line = line.replaceAll(" @0x[0-9a-f]+", "");
            return Runtime.version().feature() == RECORDED || colon < 0 ? line : line.substring(0, colon);
        }

        private Output runMain(String release) throws IOException {
            String client = classes.resolve("client").toString();
            String folder = classes.resolve(release).toString();
            if (isModule(release)) {
                return java("-p", folder, "--add-modules", "ALL-MODULE-PATH", "-cp", client, "app.Main");
            }
            return java("-cp", folder + System.getProperty("path.separator") + client, "app.Main");
        }

        private Output java(String... words) throws IOException {
            List<String> all = new ArrayList<>(List.of(Path.of(System.getProperty("java.home"), "bin", "java").toString(), "-XX:TieredStopAtLevel=1"));
            all.addAll(List.of(words));
            return run(all);
        }

        /** The folder of class files over which the releases are compared: that of all examples, or one with classes of this one's own beside. */
        private Path platform(Path ofAll) throws IOException, Fault {
            Path own = sources.resolve("platform");
            if (!Files.exists(own)) {
                return ofAll;
            }
            // the only way to compile a class of java.base: that module with our source in place of its own
            List<String> patched = List.of("-source", "17", "-target", "17", "-Xlint:-options", "--patch-module", "java.base=" + own);
            if (!isCompiled(null, "platform", files(own, ".java"), patched)) {
                throw new Fault("the sources of platform don't compile");
            }
            copy(ofAll, classes.resolve("platform"));
            return classes.resolve("platform");
        }

        void compareReport(Path ofAll, List<String> program) throws IOException, Fault {
            Path platform = platform(ofAll);
            List<String> words = new ArrayList<>(program);
            words.addAll(List.of("check", "--platform", platform.toString()));
            words.addAll(List.of("--old", classes.resolve("old").toString(), "--new", classes.resolve("new").toString()));
            String wanted = Files.readString(sources.resolve("report"));
            wanted += asked("warnings", "--warn", words) + asked("signatures", "--signatures", words) + asked("dropped", "--dropped", words)
                    + asked("calls", "--calls", words);
            Path witnesses = classes.resolve("witnesses");
            if (isModular()) {
                words.addAll(List.of("--modular", "--witness", witnesses.toString()));
            }
            Output report = run(words);
            same("the report is", wanted, report.text + report.error);
            if (isModular() && !rules(sources).isEmpty()) {
                compareLinks(platform, program, witnesses.resolve("000001"));
                replayWitnesses(witnesses);
            }
        }

        /** Compares what the program says of a witness over both releases. */
        private void compareLinks(Path platform, List<String> program, Path witness) throws IOException, Fault {
            String links = "";
            for (String release : List.of("old", "new")) {
                List<String> words = new ArrayList<>(program);
                words.addAll(List.of("link", "--modular", "--platform", platform.toString(), "--release", classes.resolve(release).toString()));
                words.addAll(List.of("--client", witness.toString()));
                Output linked = run(words);
                links += linked.text + linked.error;
            }
            same("the witness links so:", Files.readString(sources.resolve("links")), links);
        }

        /** Runs the witnesses of the report on this machine, from the class path. */
        private void replayWitnesses(Path witnesses) throws IOException, Fault {
            Path compiled = Files.createDirectories(classes.resolve("replay"));
            JavaCompiler compiler = ToolProvider.getSystemJavaCompiler();
            if (compiler.run(null, null, null, "-d", compiled.toString(), REPLAY) != 0) {
                throw new Fault(REPLAY + " doesn't compile");
            }
            Output replayed = java("-cp", compiled.toString(), "Replay", "--modular", classes.resolve("old").toString(), classes.resolve("new").toString(),
                    witnesses.toString(), sources.resolve("report").toString());
            if (replayed.status != 0) {
                throw new Fault("a witness fails:\n" + replayed.text + replayed.error);
            }
        }

        /** What a flag adds to the report, where the example has it in this file; then the flag is one of the words. */
        private String asked(String file, String flag, List<String> words) throws IOException {
            Path part = sources.resolve(file);
            if (!Files.exists(part)) {
                return "";
            }
            words.add(flag);
            return Files.readString(part);
        }

        private static void same(String what, String wanted, String found) throws Fault {
            if (!wanted.equals(found)) {
                throw new Fault(what + "\n" + found.strip() + "\nand not\n" + wanted.strip());
            }
        }

        private Output run(List<String> words) throws IOException {
            Path text = classes.resolve("text");
            Path error = classes.resolve("error");
            ProcessBuilder builder = new ProcessBuilder(words).redirectOutput(text.toFile()).redirectError(error.toFile());
            // with these a machine says more than what the client does
            builder.environment().keySet().removeAll(Set.of("JAVA_TOOL_OPTIONS", "JDK_JAVA_OPTIONS", "_JAVA_OPTIONS"));
            Process process = builder.start();
            try {
                return new Output(process.waitFor(), Files.readString(text), Files.readString(error));
            } catch (InterruptedException stopped) {
                throw new IllegalStateException(stopped);
            }
        }
    }

    /** What a program said, and its status. */
    private static final class Output {
        private final int status;
        private final String text;
        private final String error;

        Output(int status, String text, String error) {
            this.status = status;
            this.text = text;
            this.error = error;
        }
    }
}
