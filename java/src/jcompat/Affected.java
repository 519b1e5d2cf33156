package jcompat;

import java.io.IOException;
import java.nio.charset.StandardCharsets;
import java.nio.file.Files;
import java.nio.file.Path;
import java.util.ArrayDeque;
import java.util.ArrayList;
import java.util.Deque;
import java.util.HashMap;
import java.util.HashSet;
import java.util.LinkedHashMap;
import java.util.List;
import java.util.Map;
import java.util.Set;
import java.util.TreeSet;
import java.util.concurrent.ConcurrentHashMap;

/** Which of the clients that are at hand break by a new release of a library, and by what. */
public final class Affected {
    /** So many clients are unpacked at once; the program takes a thousand. */
    private static final int MOST_AT_ONCE = 200;

    private final AffectedRequest request;
    private final Host host;
    private AffectedReport report;

    public Affected(AffectedRequest request, Host host) {
        this.request = request;
        this.host = host;
    }

    /** The status: one of {@link Status}. A {@link Stop} where nothing was asked. */
    public int run() throws IOException, Stop {
        try (Workspace shared = new Workspace(request.cache, request.jdk); Shelf shelf = new Shelf(host)) {
            AtHand here = new AtHand(request, shared.cache, host);
            here.sayUnused();
            JdkClasses jdk = new JdkClasses(shared.jdk);
            Path libraries = shared.cache.work("above.");
            Set<String> above = putAbove(here, jdk, shelf, libraries);
            World world = world(here, above.isEmpty() ? null : libraries, shared);
            report = new AffectedReport(request, world, shared.jdk, here.clients);
            ask(world, new ClientFolder(world, above, jdk, shared.jdk.feature(), shelf), jdk, shared);
            LossWords words = new LossWords(classes(world, 0), classes(world, 1));
            report.broken().forEach(client -> client.lost().forEach(loss -> loss.words = words.of(loss)));
        }
        tell();
        return report.status();
    }

    private static Classes classes(World world, int index) throws IOException {
        Taken release = world.releases.get(index);
        return new Classes(release.folder, release.paths, world.platform);
    }

    /** What was found, in the form of docs/affected.schema.json; null before that. */
    public String document() throws IOException {
        return report == null ? null : Json.write(report.map());
    }

    /** Puts what the releases have above themselves in other libraries, without which they don't load, into a folder; the paths. */
    private Set<String> putAbove(AtHand here, JdkClasses jdk, Shelf shelf, Path to) throws IOException, Stop {
        Set<String> released = new HashSet<>();
        Deque<String> todo = new ArrayDeque<>();
        for (Path release : here.releases) {
            try (Source source = Source.open(release)) {
                for (String path : source.paths) {
                    if (path.endsWith(Names.CLASS) && !path.startsWith("META-INF/") && !path.endsWith(Names.MODULE) && released.add(path)) {
                        todo.addAll(above(source.bytes(path, Integer.MAX_VALUE - 8)));
                    }
                }
            }
        }
        Set<String> put = new TreeSet<>();
        Folders.Maker maker = new Folders.Maker();
        while (!todo.isEmpty()) {
            String path = Names.path(todo.poll());
            Path library = released.contains(path) || put.contains(path) || jdk.has(path) ? null : shelf.first(path, here.pool);
            if (library != null) {
                byte[] bytes = shelf.bytes(path, library);
                maker.put(to.resolve(path), bytes);
                put.add(path);
                todo.addAll(above(bytes));
            }
        }
        return put;
    }

    private static List<String> above(byte[] bytes) {
        try {
            return new ClassFile(bytes).above();
        } catch (RuntimeException malformed) {
            return List.of();
        }
    }

    /** Both releases, over a platform with the libraries, unless they are null. */
    private World world(AtHand here, Path libraries, Workspace shared) throws IOException, Stop {
        Request of = new Request();
        of.releases.addAll(here.releases);
        of.needed = request.needed;
        of.without.addAll(request.without);
        if (libraries != null) {
            of.with.add(libraries);
        }
        World world = new World(of, host, shared.cache.work("world."), shared.jdk.feature());
        world.unpack();
        world.put(shared);
        return world;
    }

    private void ask(World world, ClientFolder folders, JdkClasses jdk, Workspace shared) throws IOException, Stop {
        ClientsRun run = new ClientsRun(Program.find(request.program, shared.cache), world, host);
        List<Client> all = report.all;
        for (int from = 0; from < all.size(); from += MOST_AT_ONCE) {
            Path work = shared.cache.work("clients.");
            Map<Client, Path> asked = put(all.subList(from, Math.min(from + MOST_AT_ONCE, all.size())), folders, work);
            if (request.needed) {
                putNeeded(asked.values(), world, jdk);
            }
            run.ask(asked);
            Folders.delete(work);
        }
    }

    /** Unpacks clients; those of which something is asked. */
    private Map<Client, Path> put(List<Client> clients, ClientFolder folders, Path work) throws IOException {
        Map<Client, Path> places = new LinkedHashMap<>();
        clients.forEach(client -> places.put(client, work.resolve("" + places.size())));
        Map<Client, Boolean> reached = new ConcurrentHashMap<>();
        Folders.each(clients, client -> reached.put(client, folders.put(client, places.get(client))));
        for (Client client : clients) {
            if (!reached.get(client)) {
                report.strangers.add(client);
            } else if (client.isAsked() && client.own.isEmpty()) {
                client.refusal = "all of its classes are in packages of the releases or of the JDK";
            }
        }
        places.keySet().removeIf(client -> !reached.get(client) || !client.isAsked());
        return places;
    }

    private static void putNeeded(Iterable<Path> folders, World world, JdkClasses jdk) throws IOException {
        Set<String> names = new HashSet<>();
        for (Path folder : folders) {
            for (String path : Folders.classes(folder)) {
                names.addAll(Mentions.all(Files.readAllBytes(folder.resolve(path))));
            }
        }
        Folders.Maker maker = new Folders.Maker();
        Map<String, byte[]> needed = new HashMap<>(new Closure(jdk, new Lowered()).of(names, Folders.classes(world.platform)));
        for (Map.Entry<String, byte[]> each : needed.entrySet()) {
            maker.put(world.platform.resolve(each.getKey()), each.getValue());
        }
    }

    private void tell() throws IOException, Stop {
        if (request.json) {
            host.out.println(document());
        } else {
            new AffectedPrinted(report, host.out).print();
        }
        report.sayRest(host);
        host.out.flush();
        if (host.out.checkError()) {
            throw new Stop(Stop.NOT_WRITTEN, "the output couldn't be written");
        }
        if (request.page != null) {
            try {
                Files.write(request.page, new AffectedPage(report).html().getBytes(StandardCharsets.UTF_8));
            } catch (IOException failure) {
                throw new Stop(Stop.NOT_WRITTEN, "can't write to " + request.page);
            }
        }
    }
}
