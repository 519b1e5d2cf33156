package jcompat;

import java.io.IOException;
import java.io.PrintStream;
import java.net.URI;
import java.nio.charset.StandardCharsets;
import java.nio.file.FileSystems;
import java.nio.file.Files;
import java.nio.file.Path;
import java.util.Arrays;
import java.util.List;
import java.util.Set;
import java.util.stream.Collectors;
import java.util.stream.Stream;

/** Makes a page of a report of the program, or of a document of check-jars, of the two releases and of witnesses. */
final class PageCommand {
    Path report;
    Path oldRelease;
    Path newRelease;
    Path witnesses;
    String title = "Binary compatibility";

    void run(PrintStream out) throws IOException, Stop {
        String text = read(report);
        DocumentText document = DocumentText.of(text);
        List<Report> reports = reports(text, document);
        Classes old = release(oldRelease);
        Report first = reports.get(0);
        if (!first.lines.isEmpty() && first.lines.stream().noneMatch(line -> old.has(line.type))) {
            throw new Stop(oldRelease + " isn't the old release of this report: it doesn't have " + first.lines.get(0).type);
        }
        if (witnesses != null && !Files.isDirectory(witnesses)) {
            throw new Stop("there is no folder " + witnesses);
        }
        PageInput input = new PageInput(first, old, release(newRelease));
        input.addRelease(0, oldRelease.toString());
        input.addRelease(1, newRelease.toString());
        if (document != null) {
            input.accept(document.accepted(0));
            input.needs.addAll(document.needs());
            input.due = document.due();
            input.facts.add(new String[] {"JDK", document.jdk()});
            if (reports.size() > 1) {
                input.addModules(reports.get(1), old, release(newRelease), document.accepted(1));
            }
        }
        input.addDate();
        out.write(new Page(input, witnesses, title).html().getBytes(StandardCharsets.UTF_8));
        out.flush();
        if (out.checkError()) {
            throw new Stop("the page couldn't be written");
        }
    }

    private List<Report> reports(String text, DocumentText document) throws Stop {
        List<Report> reports;
        try {
            reports = document == null ? List.of(new Report(text)) : document.reports();
        } catch (RuntimeException malformed) {
            reports = List.of(new Report(""));
        }
        if (reports.isEmpty() || reports.stream().anyMatch(each -> each.verdict == null || !each.verdict.matches("(in)?compatible\\b.*"))) {
            throw new Stop(report + " isn't a report of jcompat check, nor a document of check-jars");
        }
        return reports;
    }

    private static String read(Path file) throws Stop {
        try {
            return new String(Files.readAllBytes(file), StandardCharsets.UTF_8);
        } catch (IOException failure) {
            throw new Stop(file + " can't be read");
        }
    }

    /** The classes of a jar or a folder, over the base module of the JDK at hand. */
    private static Classes release(Path file) throws IOException, Stop {
        if (!Files.exists(file)) {
            throw new Stop("there is no file " + file);
        }
        try {
            Path place = Files.isRegularFile(file) ? FileSystems.newFileSystem(file, (ClassLoader) null).getPath("/") : file;
            for (String inside : Arrays.asList("BOOT-INF", "WEB-INF")) {
                Path classes = place.resolve(inside).resolve("classes");
                place = Files.isDirectory(classes) ? classes : place;
            }
            Path top = place;
            try (Stream<Path> all = Files.walk(top)) {
                Set<String> paths = all.filter(Files::isRegularFile).map(each -> top.relativize(each).toString()).filter(path -> path.endsWith(Names.CLASS))
                        .collect(Collectors.toSet());
                return new Classes(top, paths, FileSystems.getFileSystem(URI.create("jrt:/")).getPath("/modules/java.base"));
            }
        } catch (RuntimeException malformed) {
            throw new Stop(file + " isn't a jar or a folder of class files that jcompat reads");
        }
    }
}
