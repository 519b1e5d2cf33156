package jcompat;

import java.io.ByteArrayOutputStream;
import java.io.IOException;
import java.io.PrintStream;
import java.nio.charset.StandardCharsets;
import java.nio.file.Files;
import java.nio.file.Path;
import java.util.ArrayList;
import java.util.Arrays;
import java.util.List;
import java.util.Map;
import java.util.TreeMap;
import java.util.TreeSet;
import java.util.stream.Collectors;
import java.util.stream.Stream;
import java.util.zip.ZipFile;

/** Compares two Debian packages, jar by jar: jars that have the same name apart from a version, with others of both where they need these. */
final class Packages {
    private static final String ROW = "%6s %9s %10s %8s %7s %6s %13s  %s%n";

    private final Request request;
    private final String name;
    private final Host host;
    private final List<String> table = new ArrayList<>();
    private int total;

    Packages(Request request, String name, Host host) {
        this.request = request;
        this.name = name;
        this.host = host;
    }

    static boolean are(Request request) {
        return !request.row && request.releases.stream().allMatch(DebianPackage::is);
    }

    int run() throws IOException, Stop {
        if (request.accepted != null) {
            throw new Stop("--accepted is for two jars, and not for two packages");
        }
        if (request.due || request.added || request.sarif != null) {
            throw new Stop("--due, --added and --sarif are for two jars, and not for two packages");
        }
        if (request.json || request.page != null || request.has("--json") || request.has("--witness")) {
            throw new Stop("--json, --page and --witness are for two jars, and not for two packages");
        }
        try (Workspace shared = new Workspace(request.cache, request.jdk)) {
            List<Map<String, Path>> jars = new ArrayList<>();
            for (Path each : request.releases) {
                jars.add(jarsOf(each, shared.cache.work("package.")));
            }
            if (jars.get(0).isEmpty()) {
                throw new Stop(request.releases.get(0) + " has no jar, so there is nothing to compare");
            }
            TreeSet<String> names = new TreeSet<>(jars.get(0).keySet());
            names.addAll(jars.get(1).keySet());
            for (String each : names) {
                Path one = jars.get(0).get(each);
                Path other = jars.get(1).get(each);
                if (one == null) {
                    row("-", 0, each + ": only in the new package");
                } else if (!hasClasses(one)) {
                    row("-", 0, each + ": has no class file");
                } else if (other == null) {
                    row("70", Stop.NOT_RUN, each + ": only in the old package");
                } else {
                    List<Path> others = Stream.concat(jars.get(0).values().stream(), jars.get(1).values().stream())
                            .filter(jar -> jar != one && jar != other).collect(Collectors.toList());
                    pair(each, one, other, others, shared);
                }
            }
        }
        host.out.printf(ROW, "status", "findings", "collisions", "warnings", "dropped", "calls", "not compared", "jar");
        table.forEach(host.out::print);
        return total;
    }

    /** To each name of a jar, without a version, the jar. */
    private static Map<String, Path> jarsOf(Path deb, Path to) throws IOException, Stop {
        Map<String, Path> jars = new TreeMap<>();
        for (Path jar : new DebianPackage(deb, to).jars) {
            String base = jar.getFileName().toString().replaceFirst("\\.jar$", "").replaceFirst("-[0-9][^-]*(?=(-[^0-9-][^-]*)*$)", "");
            String key = base;
            for (int i = 2; jars.containsKey(key); i++) {
                key = base + "(" + i + ")";
            }
            jars.put(key, jar);
        }
        return jars;
    }

    private static boolean hasClasses(Path jar) throws IOException {
        try (ZipFile zip = new ZipFile(jar.toFile())) {
            return zip.stream().anyMatch(entry -> entry.getName().endsWith(Names.CLASS));
        }
    }

    private void pair(String jar, Path one, Path other, List<Path> others, Workspace shared) throws IOException, Stop {
        Request of = new Request();
        of.releases.addAll(Arrays.asList(one, other));
        of.with.addAll(request.with);
        of.with.addAll(Needed.of(shared.platform(host).folder, of.releases, others));
        of.without.addAll(request.without);
        of.options.addAll(request.options);
        of.warn = request.warn;
        of.dropped = request.dropped;
        of.calls = request.calls;
        of.views = request.views;
        of.java = request.java;
        of.whole = request.whole;
        of.strict = request.strict;
        of.explain = request.explain;
        of.from = request.from;
        of.to = request.to;
        of.program = request.program;
        ByteArrayOutputStream said = new ByteArrayOutputStream();
        PrintStream to = new PrintStream(said, true, StandardCharsets.UTF_8.name());
        Check check = new Check(of, Host.of(name, to, to));
        int status;
        try {
            status = check.run(shared);
        } catch (Stop stop) {
            status = stop.status;
            if (stop.getMessage() != null) {
                to.println(name + ": " + stop.getMessage());
            }
        }
        table(jar, status, check);
        // of jars of which there is nothing to tell the row of the table is enough
        String text = said.toString(StandardCharsets.UTF_8.name());
        if (!text.matches("compatible: 0 findings, 0 collisions, 0 notes\n(?:0 warnings)?(?:, )?(?:0 dropped interfaces)?(?:, )?(?:0 lines on calls)?\n?")) {
            host.out.print(jar + ":\n" + text + "\n");
        }
    }

    private void table(String jar, int status, Check check) throws IOException, Stop {
        if (check.comparisons.isEmpty()) {
            row("" + status, status, jar);
        }
        for (Comparison comparison : check.comparisons) {
            boolean isOne = check.comparisons.size() == 1;
            table(isOne ? jar : jar + ", " + comparison.name(), isOne || status > 1 ? status : comparison.status, comparison);
        }
    }

    private void table(String jar, int status, Comparison comparison) throws IOException {
        Report report = comparison.report;
        long findings = report.lines.stream().filter(Line::isFinding).count();
        add("" + status, status, findings, report.lines.size() - findings, request.warn ? report.count(Line.WARNING) : "-",
                request.dropped ? report.count(Line.DROPPED) : "-", request.calls ? report.count(Line.CALL) : "-", report.unloadable("old").size(), jar);
        if (request.report != null) {
            Files.createDirectories(request.report);
            Files.write(request.report.resolve(jar), comparison.answer.out);
        }
    }

    private void row(String shown, int status, String text) {
        add(shown, status, "-", "-", "-", "-", "-", "-", text);
    }

    private void add(String shown, int status, Object... columns) {
        List<Object> all = new ArrayList<>(Arrays.asList(columns));
        all.add(0, shown);
        table.add(String.format(ROW, all.toArray()));
        total = Status.greater(status, total);
    }
}
