package jcompat;

import java.io.IOException;
import java.nio.charset.StandardCharsets;
import java.nio.file.Files;
import java.nio.file.Path;
import java.util.ArrayList;
import java.util.Arrays;
import java.util.List;
import java.util.stream.Collectors;
import java.util.stream.Stream;

/** Compares two releases, or a row of them. It is what the command line and the plugins of builds call. */
public final class Check {
    private final Request request;
    private final Host host;
    private World world;
    private Program program;
    /** What was compared of two releases: clients on the class path, modules, or both in this order. */
    final List<Comparison> comparisons = new ArrayList<>();
    private Outcome outcome;
    private Sources sources;

    public Check(Request request, Host host) {
        this.request = request;
        this.host = host;
    }

    /** Why a build on this system can't compare, or null: the program is for Linux on x86-64. */
    public static String unable(Path program) {
        return program != null || Program.isInside() ? null : "there is no jcompat for " + Program.kind() + ", so nothing is compared here";
    }

    /** The status: one of {@link Status}. A {@link Stop} where nothing was compared. */
    public int run() throws IOException, Stop {
        try (Workspace shared = new Workspace(request.cache, request.jdk)) {
            int status = run(shared);
            saySame();
            return status;
        }
    }

    private void saySame() throws IOException {
        for (int i = 1; i < request.releases.size(); i++) {
            if (Hints.areSame(request.releases.get(i - 1), request.releases.get(i))) {
                host.say(request.releases.get(i - 1) + " and " + request.releases.get(i) + " are the same file, so nothing can differ");
            }
        }
    }

    /** What two releases were found to be, in the form of docs/check-jars.schema.json; null before they are compared, and of a row. */
    public String document() throws IOException {
        return outcome == null ? null : Json.write(new Document(outcome).map());
    }

    int run(Workspace shared) throws IOException, Stop {
        if (!request.needed) {
            shared.lookEarly(host);
        }
        sources = new Sources(request.sources);
        program = Program.find(request.program, shared.cache);
        Versions known = new Versions(program, request, host);
        List<String> versions = request.row ? new ArrayList<>() : known.options();
        world = new World(request, host, shared.cache.work("world."), shared.jdk.feature());
        world.unpack();
        world.put(shared);
        int status = request.row ? row() : check(versions, known, shared.jdk);
        host.out.flush();
        if (host.out.checkError()) {
            throw new Stop(Stop.NOT_WRITTEN, "the output couldn't be written");
        }
        return status;
    }

    private List<Path> places() {
        return Stream.concat(request.releases.stream(), request.with.stream()).collect(Collectors.toList());
    }

    private Classes classes(int index) throws IOException {
        Taken release = world.releases.get(index);
        return new Classes(release.folder, release.paths, world.platform);
    }

    private int check(List<String> versions, Versions known, Jdk jdk) throws IOException, Stop {
        boolean modules = request.views != Request.Views.CLASS_PATH && (world.hasModules() || request.has("--modular"));
        if (!modules || request.views == Request.Views.ALL && !request.has("--modular")) {
            compare(false, versions, modules);
        }
        if (modules) {
            world.putModules();
            compare(true, versions, !comparisons.isEmpty());
        }
        Accepted accepted = request.accepted == null ? null : new Accepted(request.accepted, host);
        comparisons.forEach(each -> each.judge(accepted, request));
        int status = comparisons.stream().map(each -> each.status).reduce(Status.GOOD, Status::greater);
        outcome = new Outcome(request, world, versions, jdk, comparisons, status);
        outcome.sources = sources;
        outcome.judgeJava(host);
        if (request.due) {
            outcome.due = new Due(known.known(0), versions.isEmpty() ? null : known.known(1), comparisons, request.strict);
        }
        tell(accepted);
        return outcome.status;
    }

    /** One of two comparisons keeps what it writes beside that of the other. */
    private void compare(boolean asModules, List<String> versions, boolean isOneOfTwo) throws IOException, Stop {
        String ending = asModules && isOneOfTwo ? ".modules" : "";
        List<String> options = new ArrayList<>(request.options);
        for (int i = 0; i < options.size(); i++) {
            String option = options.get(i);
            boolean named = i > 0 && options.get(i - 1).equals("--witness");
            options.set(i, named || option.startsWith("--witness=") ? option + ending : option);
        }
        add(options, "--warn", request.warn);
        add(options, "--dropped", request.dropped);
        add(options, "--calls", request.calls);
        options.addAll(versions);
        add(options, "--modular", asModules);
        Comparison comparison = new Comparison(asModules, classes(0), classes(1), options);
        comparison.ask(program, world, host);
        if (request.due || request.added) {
            comparison.additions = new Additions(comparison.oldRelease, comparison.newRelease);
        }
        if (request.report != null) {
            comparison.keep(request.report.resolveSibling(request.report.getFileName() + ending));
        }
        comparisons.add(comparison);
    }

    private static void add(List<String> options, String option, boolean asked) {
        if (asked && !options.contains(option)) {
            options.add(option);
        }
    }

    private void tell(Accepted accepted) throws IOException, Stop {
        if (accepted != null) {
            accepted.sayUnused();
        }
        if (request.json) {
            host.out.println(document());
        }
        for (Comparison each : comparisons) {
            if (!request.json) {
                print(each);
            }
            // most often the same classes don't load as modules, which is said once
            if (each == comparisons.get(0) || !each.unloadable().equals(comparisons.get(0).unloadable())) {
                Uncompared uncompared = new Uncompared(host, places());
                uncompared.sayOld("the old release", each.report, each.oldRelease);
                uncompared.sayNew("the new release", each.report, each.newRelease);
            }
            if (accepted != null) {
                accepted.say(each);
            }
        }
        if (request.page != null) {
            write(request.page, new Page(PageInput.of(outcome), null, request.title).html());
        }
        if (request.sarif != null) {
            write(request.sarif, Json.write(new Sarif(outcome).map()) + "\n");
        }
    }

    private static void write(Path file, String text) throws Stop {
        try {
            Files.write(file, text.getBytes(StandardCharsets.UTF_8));
        } catch (IOException failure) {
            throw new Stop(Stop.NOT_WRITTEN, "can't write to " + file);
        }
    }

    private void print(Comparison comparison) throws IOException {
        if (comparison.options.contains("--json")) {
            host.out.write(comparison.answer.out, 0, comparison.answer.out.length);
            head(comparison).stream().skip(1).forEach(host::say);
            return;
        }
        if (comparisons.size() > 1) {
            host.out.println((comparison == comparisons.get(0) ? "" : "\n") + comparison.name() + ":");
        }
        Words words = new Words(comparison.oldRelease, comparison.newRelease);
        new Printed(comparison.report, comparison.folding, words, request.explain, host.out).print(comparison.left, head(comparison));
        if (request.added) {
            comparison.additions.lines(request.explain).forEach(host.out::println);
        }
        host.out.flush();
    }

    /** What stands first: the verdict, how many warnings and the like there are, what Java is needed, which number is due. */
    private List<String> head(Comparison comparison) {
        List<String> head = new ArrayList<>(List.of(Verdict.of(comparison)));
        head.addAll(Verdict.beside(comparison));
        String counts = counts(comparison);
        if (!counts.isEmpty()) {
            head.add(counts);
        }
        if (comparison == comparisons.get(0)) {
            head.addAll(outcome.needs);
            head.addAll(due());
        }
        return head;
    }

    private static String counts(Comparison comparison) {
        String counts = Printed.counts(comparison.report.further, comparison.options);
        long repeated = comparison.folding.repeated(comparison.report.further);
        return repeated == 0 ? counts : counts + "; " + repeated + (repeated == 1 ? " warning only says" : " warnings only say") + " again what a finding says";
    }

    /** Which version number is due, in lines of which the first says it; none where it isn't asked for, nor before two releases are compared. */
    public List<String> due() {
        return outcome == null || outcome.due == null ? List.of() : outcome.due.lines();
    }

    /** The verdict of each comparison, and how many warnings there are, in one line; of two releases that were compared. */
    public String summary() {
        return comparisons.stream().map(each -> Verdict.of(each) + "; " + counts(each)).collect(Collectors.joining("; as modules: "));
    }

    private int row() throws IOException, Stop {
        List<String> words = new ArrayList<>(Arrays.asList("history", "--platform", world.platform.toString()));
        List<Classes> releases = new ArrayList<>();
        for (int i = 0; i < world.releases.size(); i++) {
            words.add(world.releases.get(i).folder.toString());
            releases.add(classes(i));
        }
        Program.Answer answer = program.run(words, host);
        if (answer.status > 1) {
            throw new Stop(answer.status, new Refusal(world, answer).advice(answer.status));
        }
        if (request.report != null) {
            try {
                Files.write(request.report, answer.out);
            } catch (IOException failure) {
                throw new Stop(Stop.NOT_WRITTEN, "can't write to " + request.report);
            }
        }
        List<Javas> javas = world.releases.stream().map(Taken::javas).collect(Collectors.toList());
        boolean isWhole = new Row(request.releases, releases, javas, answer.text()).tell(request.explain, host, new Uncompared(host, places()));
        return request.whole && !isWhole ? Status.greater(answer.status, Status.NOT_WHOLE) : answer.status;
    }
}
