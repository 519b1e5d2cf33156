import java.io.BufferedReader;
import java.io.ByteArrayOutputStream;
import java.io.DataOutputStream;
import java.io.IOException;
import java.io.UncheckedIOException;
import java.lang.invoke.MethodHandles;
import java.lang.invoke.MethodType;
import java.lang.reflect.Array;
import java.lang.reflect.Constructor;
import java.lang.reflect.InvocationTargetException;
import java.lang.reflect.Method;
import java.lang.reflect.Modifier;
import java.net.URL;
import java.net.URLClassLoader;
import java.nio.file.Files;
import java.nio.file.Path;
import java.util.ArrayList;
import java.util.List;
import java.util.Map;
import java.util.Set;
import java.util.TreeMap;
import java.util.TreeSet;
import java.util.stream.Collectors;
import java.util.stream.Stream;

/**
 * Replays the witnesses of a check on this Java virtual machine: <code>java Replay.java OLD NEW WITNESSES REPORT [LIBRARY]..</code>, where
 * WITNESSES is the folder that <code>jcompat check --witness</code> filled and REPORT is what it printed. A LIBRARY is a jar, or a folder of
 * class files, that the releases need.
 *
 * <p>Of a report with <code>--modular</code>: <code>java -cp COMPILED Replay --modular OLD NEW WITNESSES REPORT [LIBRARY]..</code>, where this file
 * was compiled to COMPILED. Then each witness is run by a machine of its own, from the class path. A release with a <code>module-info.class</code>
 * stands on the module path there, as does each LIBRARY, and one without it on the class path.
 *
 * <p>The classes of each number are loaded, linked and run beside the JDK and the old release, where no error may come, and then beside the
 * JDK and the new release, where the printed error has to come. A line says how it went: <code>ok</code>, <code>differs</code> where the
 * machine gives another error for a reason that docs/LINKING.md has ("Where HotSpot differs"), which is checked and told, <code>hidden</code>
 * where the library's own code, which a client calls too, fails before the client does, or <code>FAILED</code>. It says which part of the
 * client failed with each release, and which classes weren't found, as where a library isn't named. The status is 1 where a witness fails.
 *
 * <p>A machine may resolve what an instruction names only when it comes to the instruction (JVMS 5.4). So each constructor and each method
 * that has a body is called once. No instruction before the last that names something throws: its operands are zeros and nulls, and that a
 * receiver is null is seen only after the member was resolved (JVMS 6.5).
 */
public final class Replay {
    /** The words after which a machine tells of a witness beside one release, to the machine that started it. */
    private static final String BESIDE = "--beside";

    private final String text;
    private final String rule;
    private final String type;
    private final String member;
    private final String seat;
    private final String error;

    public static void main(String[] words) throws IOException {
        if (words[0].equals(BESIDE)) {
            Run run = new Run();
            new World(ClassLoader.getSystemClassLoader(), Path.of(words[1]), Path.of(words[2]), run).replay(new Replay(words[3]));
            run.tell();
            return;
        }
        boolean isModular = words[0].equals("--modular");
        List<String> given = List.of(words).subList(isModular ? 1 : 0, words.length);
        Path oldRelease = Path.of(given.get(0));
        Path newRelease = Path.of(given.get(1));
        Path witnesses = Path.of(given.get(2));
        List<String> libraries = given.subList(4, given.size());
        ClassLoader platform = platform(libraries);
        Map<String, Integer> counts = new TreeMap<>(Map.of("ok", 0, "differs", 0, "hidden", 0, "FAILED", 0));
        for (String text : Files.readAllLines(Path.of(given.get(3)))) {
            // the notes and the verdict, which follow, have no number
            if (Character.isDigit(text.charAt(0))) {
                Replay line = new Replay(text);
                Path witness = witnesses.resolve(String.format("%06d", Integer.parseInt(text.split(" ")[0])));
                List<Run> runs = new ArrayList<>();
                for (Path release : List.of(oldRelease, newRelease)) {
                    runs.add(isModular ? line.started(release, witness, libraries) : line.run(platform, release, witness));
                }
                String outcome = line.outcome(runs.get(0), runs.get(1));
                System.out.println(outcome);
                counts.merge(outcome.substring(0, outcome.indexOf(' ')), 1, Integer::sum);
            }
        }
        int all = counts.values().stream().mapToInt(Integer::intValue).sum();
        System.out.printf("replayed: %d witnesses, %d differ, %d hidden, %d failed%n", all, counts.get("differs"), counts.get("hidden"), counts.get("FAILED"));
        System.exit(counts.get("FAILED") == 0 ? 0 : 1);
    }

    /** The JDK, with the libraries. */
    private static ClassLoader platform(List<String> libraries) throws IOException {
        List<URL> urls = new ArrayList<>();
        for (String library : libraries) {
            urls.add(Path.of(library).toUri().toURL());
        }
        return new URLClassLoader(urls.toArray(URL[]::new), ClassLoader.getPlatformClassLoader());
    }

    /** A line of the report. */
    private Replay(String text) {
        String[] word = text.split(" ");
        this.text = text;
        rule = word[1];
        type = word[2].replace('/', '.');
        member = word[3];
        seat = word[5].replace('/', '.');
        error = word[6];
    }

    /** Runs the witness beside a release. */
    private Run run(ClassLoader platform, Path release, Path witness) throws IOException {
        Run run = new Run();
        new World(new Loader(platform, release, witness), release, witness, run).replay(this);
        return run;
    }

    /** Starts a machine that runs the witness from the class path. */
    private Run started(Path release, Path witness, List<String> libraries) throws IOException {
        String between = System.getProperty("path.separator");
        List<String> modules = new ArrayList<>(libraries);
        List<String> classes = new ArrayList<>(List.of(witness.toString(), System.getProperty("java.class.path")));
        (Files.exists(release.resolve("module-info.class")) ? modules : classes).add(release.toString());
        List<String> words = new ArrayList<>(List.of(Path.of(System.getProperty("java.home"), "bin", "java").toString(), "-XX:TieredStopAtLevel=1"));
        if (!modules.isEmpty()) {
            words.addAll(List.of("-p", String.join(between, modules), "--add-modules", "ALL-MODULE-PATH"));
        }
        words.addAll(List.of("-cp", String.join(between, classes), Replay.class.getName(), BESIDE, release.toString(), witness.toString(), text));
        Process machine = new ProcessBuilder(words).redirectError(ProcessBuilder.Redirect.INHERIT).start();
        Run run = new Run(machine.inputReader());
        try {
            if (machine.waitFor() != 0) {
                throw new IOException("no machine for " + release + " ran to its end");
            }
        } catch (InterruptedException stopped) {
            throw new IllegalStateException(stopped);
        }
        return run;
    }

    /** How it went, and the line. */
    private String outcome(Run before, Run after) {
        String parts = told(", with the old release: ", before) + told(", with the new one: ", after);
        if (before.errors.isEmpty() && after.errors.containsValue(error)) {
            return "ok " + text;
        }
        if (before.errors.isEmpty() && after.difference != null) {
            return "differs " + text + ": " + after.difference + parts;
        }
        boolean isHidden = before.errors.isEmpty() && after.errors.isEmpty() && !after.faults.isEmpty();
        return (isHidden ? "hidden " : "FAILED ") + text + parts;
    }

    private static String told(String before, Run run) {
        return (run.errors.isEmpty() ? "" : before + run.errors) + (run.faults.isEmpty() ? "" : before + "the library's own code fails in " + run.faults)
                + (run.missing.isEmpty() ? "" : " for lack of " + String.join(", ", run.missing));
    }

    /** Why the machine gives another error with the new release, as LINKING.md has it; null where it shouldn't. */
    private String difference(World after) {
        Class<?> now = after.loaded(type);
        Map<String, String> errors = after.run.errors;
        boolean isAct = rule.equals("H7") || rule.equals("H8");
        if (isAct && errors.containsValue("VerifyError") && now != null && after.loaded(seat) != null && !now.isAssignableFrom(after.loaded(seat))) {
            return "it is verified before it is resolved, and " + seat + " is no " + type + " any more";
        }
        if (rule.equals("H5") && error.equals("NoSuchMethodError") && errors.containsValue("IllegalAccessError") && now != null && isInherited(now)) {
            return "access is checked before it is asked whose constructor it is";
        }
        if (rule.equals("H1") && now == null && errors.containsValue(after.fault(type))) {
            return "another of the load faults of " + type + " comes first";
        }
        if (rule.equals("H4") && member.equals("java/lang/Object") && now == null && errors.isEmpty()) {
            return "the verifier lets every reference pass as java.lang.Object";
        }
        if (error.equals("VerifyError") && after.run.missing.stream().anyMatch(name -> after.loaded(name) == null)) {
            return "the verifier must load a class that is gone: " + String.join(", ", after.run.missing);
        }
        return null;
    }

    /** Whether the class lacks the constructor of the line, and one above it has it. */
    private boolean isInherited(Class<?> now) {
        for (Class<?> above = now; above != null; above = above.getSuperclass()) {
            for (Constructor<?> constructor : above.getDeclaredConstructors()) {
                if (member.equals("<init>" + MethodType.methodType(void.class, constructor.getParameterTypes()).toMethodDescriptorString())) {
                    return above != now;
                }
            }
        }
        return false;
    }

    /** What came of a witness beside one release. */
    private static final class Run {
        /** The errors of the client, by the part of it that gave them. */
        private final Map<String, String> errors = new TreeMap<>();
        /** Those that the code of the library gave, by the part that called it. */
        private final Map<String, String> faults = new TreeMap<>();
        /** The classes that weren't found. */
        private final Set<String> missing = new TreeSet<>();
        /** Why there may be another error than the printed one, or null. */
        private String difference;

        Run() {
        }

        /** What another machine tells. */
        Run(BufferedReader told) throws IOException {
            for (String line = told.readLine(); line != null; line = told.readLine()) {
                String[] word = line.split("\t", -1);
                switch (word[0]) {
                    case "error" -> errors.put(word[1], word[2]);
                    case "fault" -> faults.put(word[1], word[2]);
                    case "missing" -> missing.add(word[1]);
                    case "difference" -> difference = word[1];
                    default -> {
                        // what the library's own code prints
                    }
                }
            }
        }

        void tell() {
            errors.forEach((part, error) -> System.out.println("error\t" + part + "\t" + error));
            faults.forEach((part, error) -> System.out.println("fault\t" + part + "\t" + error));
            missing.forEach(name -> System.out.println("missing\t" + name));
            if (difference != null) {
                System.out.println("difference\t" + difference);
            }
        }
    }

    /** The classes of the JDK and of libraries, of a release and of a witness. */
    private static final class Loader extends ClassLoader {
        private final List<Path> folders;

        Loader(ClassLoader platform, Path release, Path witness) {
            super(platform);
            folders = List.of(release, witness);
        }

        @Override
        protected Class<?> findClass(String name) throws ClassNotFoundException {
            for (Path folder : folders) {
                Path file = folder.resolve(path(name));
                if (Files.isRegularFile(file)) {
                    byte[] bytes = bytes(file);
                    return defineClass(name, bytes, 0, bytes.length);
                }
            }
            throw new ClassNotFoundException(name);
        }
    }

    private static String path(String name) {
        return name.replace('.', '/') + ".class";
    }

    /** A witness beside one release. */
    private static final class World {
        private final ClassLoader loader;
        private final Path release;
        private final Path witness;
        private final Run run;

        World(ClassLoader loader, Path release, Path witness, Run run) {
            this.loader = loader;
            this.release = release;
            this.witness = witness;
            this.run = run;
        }

        /** Loads, links and runs the classes of the witness of a line. */
        void replay(Replay line) throws IOException {
            for (String name : witnessClasses()) {
                attempt("the loading of " + name, () -> call(Class.forName(name, true, loader)));
            }
            run.difference = line.difference(this);
        }

        /** A class of this world, or null where it doesn't load. */
        Class<?> loaded(String name) {
            try {
                return Class.forName(name, false, loader);
            } catch (ClassNotFoundException | LinkageError none) {
                return null;
            }
        }

        /** The error by which a class doesn't load. */
        String fault(String name) {
            try {
                Class.forName(name, false, loader);
                return "none";
            } catch (ClassNotFoundException none) {
                return "NoClassDefFoundError";
            } catch (LinkageError fault) {
                return fault.getClass().getSimpleName();
            }
        }

        private List<String> witnessClasses() throws IOException {
            try (Stream<Path> files = Files.walk(witness)) {
                return files.filter(Files::isRegularFile)
                        .map(file -> witness.relativize(file).toString().replaceAll("\\.class$", "").replace('/', '.'))
                        .sorted()
                        .collect(Collectors.toList());
            }
        }

        /** Calls the constructor, and the other methods that have a body: these are static, and of classes that aren't abstract. */
        private void call(Class<?> type) {
            if (type.isInterface()) {
                return;
            }
            if (Modifier.isAbstract(type.getModifiers())) {
                attempt("the constructor of " + type.getName(), () -> subclass(type).getConstructor().newInstance());
                return;
            }
            attempt("the constructor of " + type.getName(), () -> type.getConstructor().newInstance());
            for (Method method : type.getDeclaredMethods()) {
                attempt(type.getName() + "." + method.getName(), () -> method.invoke(null, arguments(method)));
            }
        }

        /** A class whose constructor does nothing but call that of this one. */
        private Class<?> subclass(Class<?> type) throws IllegalAccessException {
            byte[] bytes = subclassFile(type.getName() + "Made", type.getName());
            return MethodHandles.privateLookupIn(type, MethodHandles.lookup()).defineClass(bytes);
        }

        private interface Step {
            void take() throws ReflectiveOperationException;
        }

        /** Takes a step and notes its error. An exception is none: it comes only after all is linked. */
        private void attempt(String part, Step step) {
            try {
                step.take();
            } catch (InvocationTargetException called) {
                if (called.getCause() instanceof Error) {
                    note(part, (Error) called.getCause());
                }
            } catch (LinkageError error) {
                note(part, error);
            } catch (ReflectiveOperationException impossible) {
                throw new IllegalStateException(impossible);
            }
        }

        private void note(String part, Error error) {
            String message = String.valueOf(error.getMessage());
            boolean isInitializer = error instanceof ExceptionInInitializerError || message.startsWith("Could not initialize class ");
            (isInitializer || isOfLibrary(error) ? run.faults : run.errors).put(part, error.getClass().getSimpleName());
            if (error instanceof NoClassDefFoundError && !isInitializer) {
                run.missing.add(message.replace('/', '.'));
            }
        }

        /** Whether the first code below the JDK's and this program's own is the library's. */
        private boolean isOfLibrary(Error error) {
            for (StackTraceElement frame : error.getStackTrace()) {
                if (Files.exists(release.resolve(path(frame.getClassName())))) {
                    return true;
                }
                if (Files.exists(witness.resolve(path(frame.getClassName())))) {
                    return false;
                }
            }
            return false;
        }
    }

    private static byte[] bytes(Path file) {
        try {
            return Files.readAllBytes(file);
        } catch (IOException failure) {
            throw new UncheckedIOException(failure);
        }
    }

    /**
     * A zero or a null for each parameter, and an object for a <code>java.lang.Object</code>: to cast a null resolves no class
     * (JVMS 6.5, checkcast).
     */
    private static Object[] arguments(Method method) {
        return Stream.of(method.getParameterTypes())
                .map(type -> type == Object.class ? new Object() : Array.get(Array.newInstance(type, 1), 0))
                .toArray();
    }

    /** The class file of <code>public class NAME extends ABOVE { public NAME() { super(); } }</code> (JVMS 4). */
    private static byte[] subclassFile(String name, String above) {
        ByteArrayOutputStream bytes = new ByteArrayOutputStream();
        try (DataOutputStream file = new DataOutputStream(bytes)) {
            file.writeInt(0xcafebabe);
            file.writeInt(52);
            file.writeShort(10);
            for (String text : List.of(name.replace('.', '/'), above.replace('.', '/'), "<init>", "()V", "Code")) {
                file.writeByte(1);
                file.writeUTF(text);
            }
            // 6 and 7: the two classes; 8: the key of the constructor; 9: that of the superclass
            file.write(new byte[] {7, 0, 1, 7, 0, 2, 12, 0, 3, 0, 4, 10, 0, 7, 0, 8});
            // public, super; the two classes; no interfaces, no fields, one method
            file.write(new byte[] {0, 0x21, 0, 6, 0, 7, 0, 0, 0, 0, 0, 1});
            // public <init>()V, with an attribute Code of 17 bytes
            file.write(new byte[] {0, 1, 0, 3, 0, 4, 0, 1, 0, 5, 0, 0, 0, 17});
            // one place on the stack, one local, 5 bytes: aload_0, invokespecial 9, return; no table of exceptions, no attributes
            file.write(new byte[] {0, 1, 0, 1, 0, 0, 0, 5, 0x2a, (byte) 0xb7, 0, 9, (byte) 0xb1, 0, 0, 0, 0});
            // no attributes
            file.writeShort(0);
        } catch (IOException failure) {
            throw new UncheckedIOException(failure);
        }
        return bytes.toByteArray();
    }
}
