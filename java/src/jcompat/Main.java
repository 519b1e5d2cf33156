package jcompat;

import java.io.BufferedOutputStream;
import java.io.FileDescriptor;
import java.io.FileOutputStream;
import java.io.IOException;
import java.io.InputStream;
import java.io.PrintStream;
import java.nio.charset.StandardCharsets;
import java.nio.file.Path;
import java.nio.file.Paths;
import java.util.ArrayList;
import java.util.Arrays;
import java.util.List;
import java.util.stream.Collectors;

/** The command line: <code>java -jar jcompat.jar check OLD NEW ..</code>, and so on. */
public final class Main {
    private Main() {
    }

    public static void main(String[] words) {
        String name = System.getProperty("jcompat.name", "jcompat");
        PrintStream out = new PrintStream(new BufferedOutputStream(new FileOutputStream(FileDescriptor.out), 1 << 16), false);
        PrintStream err = new PrintStream(new FileOutputStream(FileDescriptor.err), true);
        int status;
        try {
            status = run(new ArrayList<>(Arrays.asList(words)), name, out, err);
        } catch (Stop stop) {
            status = stop.status;
            if (stop.getMessage() != null) {
                out.flush();
                err.println(name + ": " + stop.getMessage());
            }
        } catch (IOException failure) {
            status = Stop.NOT_RUN;
            err.println(name + ": " + failure);
        } catch (OutOfMemoryError failure) {
            status = Stop.NOT_RUN;
            err.println(name + ": there isn't enough memory for Java: give it more, as by JAVA_TOOL_OPTIONS=-Xmx4g");
        } catch (RuntimeException | Error failure) {
            // Java itself would end with 1, which says that there are findings
            status = Stop.NOT_RUN;
            failure.printStackTrace(err);
        }
        out.flush();
        System.exit(status);
    }

    private static int run(List<String> words, String name, PrintStream out, PrintStream err) throws IOException, Stop {
        String command = words.isEmpty() ? "--help" : words.remove(0);
        Host host = Host.of(name, out, err);
        if (words.contains("--help") || words.contains("-h")) {
            return help(command, out);
        }
        switch (command) {
            case "history":
                words.add(0, "--row");
                return new Check(new Arguments(words).check(), host).run();
            case "check":
                Request request = new Arguments(words).check();
                if (Packages.are(request)) {
                    return new Packages(request, name, host).run();
                }
                return new Check(request, host).run();
            case "affected":
                return new Affected(new Arguments(words).affected(), host).run();
            case "page":
                PageCommand page = new PageCommand();
                new Arguments(words).page(page);
                page.run(out);
                return 0;
            case "annotate":
                List<Path> folders = (words.isEmpty() ? Arrays.asList("src/main/java", "src/main/kotlin") : words).stream().map(Paths::get).collect(Collectors.toList());
                new Annotate(folders).run(new String(System.in.readAllBytes(), StandardCharsets.UTF_8), out);
                return 0;
            case "-h": case "--help":
                return help("jcompat", out);
            default:
                throw new Stop("there is no command " + command + ": see --help");
        }
    }

    private static int help(String command, PrintStream out) throws IOException, Stop {
        try (InputStream in = Main.class.getResourceAsStream("help/" + (command.equals("history") ? "check" : command) + ".txt")) {
            if (in == null) {
                throw new Stop("there is no command " + command + ": see --help");
            }
            out.write(in.readAllBytes());
        }
        return 0;
    }
}
