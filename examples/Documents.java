import java.io.ByteArrayOutputStream;
import java.io.PrintStream;
import java.nio.file.Files;
import java.nio.file.Path;
import java.util.ArrayList;
import java.util.List;
import java.util.stream.Collectors;
import java.util.stream.Stream;

import jcompat.Affected;
import jcompat.AffectedRequest;
import jcompat.Check;
import jcompat.Host;
import jcompat.Request;

/**
 * Writes the documents of check-jars and of affected, and logs of SARIF, of all examples: java -cp jcompat.jar examples/Documents.java PROGRAM RULES CLASSES OUT.
 *
 * <p>Each folder of RULES has a folder of the same name in CLASSES, with the classes of an old and of a new release and of a client. Each pair is compared with all that can be
 * asked for: accepted breaks, sources, what was added, which number is due.
 */
public final class Documents {
    private Documents() {
    }

    public static void main(String[] words) throws Exception {
        Path program = Path.of(words[0]);
        Path rules = Path.of(words[1]);
        Path classes = Path.of(words[2]);
        Path out = Files.createDirectories(Path.of(words[3]));
        Path accepted = Files.write(out.resolve("accepted"), List.of("H8 *", "H4 shapes/Canvas", "warning *"));
        try (Stream<Path> all = Files.list(rules)) {
            for (Path rule : all.filter(Files::isDirectory).sorted().collect(Collectors.toList())) {
                String name = rule.getFileName().toString();
                Request request = new Request();
                request.program = program.toAbsolutePath();
                request.cache = out.resolve("cache");
                request.needed = true;
                request.releases.add(classes.resolve(name).resolve("old"));
                request.releases.add(classes.resolve(name).resolve("new"));
                request.accepted = accepted;
                request.sources.add(rule.resolve("new"));
                request.sarif = out.resolve(name + ".sarif");
                request.from = "1.4.2";
                request.to = "1.5.0";
                request.due = true;
                request.added = true;
                request.options.add("--signatures");
                List<String> said = new ArrayList<>();
                Check check = new Check(request, new Host(new PrintStream(new ByteArrayOutputStream(), false, "UTF-8"), said::add));
                check.run();
                Files.writeString(out.resolve(name + ".json"), check.document());
                Files.writeString(out.resolve(name + ".affected"), affected(request, classes.resolve(name).resolve("client")));
            }
        }
    }

    /** What the client of an example loses. */
    private static String affected(Request of, Path client) throws Exception {
        AffectedRequest request = new AffectedRequest();
        request.program = of.program;
        request.cache = of.cache;
        request.needed = true;
        request.oldRelease = of.releases.get(0);
        request.newRelease = of.releases.get(1);
        request.clients.add(client);
        Affected affected = new Affected(request, new Host(new PrintStream(new ByteArrayOutputStream(), false, "UTF-8"), any -> { }));
        affected.run();
        return affected.document();
    }
}
