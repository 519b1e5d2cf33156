package jcompat;

import java.io.IOException;
import java.nio.file.Path;
import java.util.ArrayList;
import java.util.Comparator;
import java.util.HashSet;
import java.util.LinkedHashMap;
import java.util.List;
import java.util.Locale;
import java.util.Map;
import java.util.Set;
import java.util.TreeMap;
import java.util.TreeSet;
import java.util.stream.Collectors;

/** What was found of clients. */
final class AffectedReport {
    static final String FORMAT = "jcompat affected";
    /** Grows where a key is taken away or means something else; a new key leaves it. */
    static final int VERSION = 1;
    /** So many of the missing classes are said. */
    private static final int MOST_SAID = 10;

    final AffectedRequest request;
    final World world;
    final Jdk jdk;
    /** All that are at hand. */
    final List<Client> all;
    /** Those that name no class of the old release, nor have one above what they name: they lose nothing, and aren't asked. */
    final Set<Client> strangers = new HashSet<>();

    AffectedReport(AffectedRequest request, World world, Jdk jdk, List<Client> all) {
        this.request = request;
        this.world = world;
        this.jdk = jdk;
        this.all = all;
    }

    /** Those that use the old release. */
    List<Client> clients() {
        return all.stream().filter(client -> !strangers.contains(client)).collect(Collectors.toList());
    }

    List<Client> broken() {
        return clients().stream().filter(Client::isBroken).collect(Collectors.toList());
    }

    List<Client> refused() {
        return clients().stream().filter(client -> !client.isAsked()).collect(Collectors.toList());
    }

    /** How many of those that are asked have classes that are left out, or name some that are missing. */
    long partlyAsked() {
        return clients().stream().filter(client -> client.isAsked() && !client.isWhole()).count();
    }

    int status() {
        boolean isWhole = refused().isEmpty() && (!request.whole || partlyAsked() == 0);
        return !broken().isEmpty() ? Status.BREAKS : isWhole ? Status.GOOD : Status.NOT_WHOLE;
    }

    /** As <code>affected: 56 clients, 11 broken, 0 not asked; 202 of 258 name nothing of the old release</code>. */
    String counts() {
        return "affected: " + clients().size() + " clients, " + broken().size() + " broken, " + refused().size() + " not asked; " + strangers.size() + " of " + all.size()
                + " name nothing of the old release";
    }

    /** To each thing that is lost in how many clients it is, the most first; what doesn't load isn't counted, since it is each client's own. */
    Map<String, Integer> spots() {
        Map<String, Integer> counts = new TreeMap<>();
        broken().forEach(client -> client.lost().stream().filter(loss -> loss.type != null).forEach(loss -> counts.merge(loss.text(), 1, Integer::sum)));
        return byCount(counts);
    }

    private static Map<String, Integer> byCount(Map<String, Integer> counts) {
        Map<String, Integer> sorted = new LinkedHashMap<>();
        counts.entrySet().stream().sorted(Comparator.comparing(each -> -each.getValue())).forEach(each -> sorted.put(each.getKey(), each.getValue()));
        return sorted;
    }

    /** The Debian packages with a client that breaks. */
    Set<String> packages() {
        return broken().stream().filter(client -> client.of != null).map(client -> client.of.name).collect(Collectors.toCollection(TreeSet::new));
    }

    /** Says what wasn't asked, and what is missing. */
    void sayRest(Host host) {
        for (Client client : clients()) {
            client.refusedFiles.forEach(line -> host.say(client.name + ": left out: " + line.replaceFirst("^jcompat: client: ", "")));
            if (!client.lostByLibraries.isEmpty()) {
                host.say(client.name + ": classes of other libraries that it needs lose " + client.lostByLibraries.size() + " beside that, as " + client.lostByLibraries.get(0));
            }
        }
        Map<String, Integer> missing = new TreeMap<>();
        clients().forEach(client -> client.missing.forEach(name -> missing.merge(name, 1, Integer::sum)));
        if (!missing.isEmpty()) {
            host.say(missing.size() + " classes are nowhere that clients name, or that stand above these: nothing is said of uses of them, nor of classes below them. Of how many clients each:");
            byCount(missing).entrySet().stream().limit(MOST_SAID).forEach(each -> host.say(String.format("%8d  %s", each.getValue(), each.getKey())));
        }
        Set<String> lacking = clients().stream().filter(client -> !client.missing.isEmpty()).flatMap(client -> client.lacking.stream()).collect(Collectors.toCollection(TreeSet::new));
        if (!lacking.isEmpty()) {
            host.say("not at hand, of what their Depends and trees name: " + lacking.stream().limit(MOST_SAID).collect(Collectors.joining(", "))
                    + (lacking.size() > MOST_SAID ? " and " + (lacking.size() - MOST_SAID) + " others" : ""));
        }
    }

    // ---- for machines

    Map<String, Object> map() throws IOException {
        Map<String, Object> map = new LinkedHashMap<>();
        map.put("format", FORMAT);
        map.put("version", VERSION);
        map.put("status", status());
        map.put("tool", System.getProperty("jcompat.version"));
        map.put("old", release(request.oldRelease, 0));
        map.put("new", release(request.newRelease, 1));
        map.put("jdk", jdk.version);
        Map<String, Object> counts = new LinkedHashMap<>();
        counts.put("at_hand", all.size());
        counts.put("clients", clients().size());
        counts.put("broken", broken().size());
        counts.put("not_asked", refused().size());
        counts.put("partly_asked", partlyAsked());
        map.put("counts", counts);
        map.put("packages", new ArrayList<>(packages()));
        List<Object> spots = new ArrayList<>();
        spots().forEach((text, clients) -> spots.add(Json.object("text", text, "clients", clients)));
        map.put("spots", spots);
        map.put("clients", clients().stream().map(AffectedReport::client).collect(Collectors.toList()));
        map.put("strangers", all.stream().filter(strangers::contains).map(client -> client.name).collect(Collectors.toList()));
        return map;
    }

    private Map<String, Object> release(Path file, int index) throws IOException {
        return Json.object("name", file.toString(), "sha256", Digest.of(file), "classes", world.releases.get(index).paths.size());
    }

    private static Map<String, Object> client(Client client) {
        Map<String, Object> map = new LinkedHashMap<>();
        map.put("name", client.name);
        map.put("package", client.of == null ? null : Json.object("name", client.of.name, "version", client.of.version));
        map.put("says", !client.isAsked() ? "not asked" : client.isBroken() ? "breaks" : "keeps");
        map.put("why", client.refusal);
        map.put("classes", client.own.size());
        map.put("uses", client.uses.size());
        map.put("left_out", Json.object("of_releases", client.ofReleases, "of_platform", client.ofPlatform, "refused", client.refusedFiles));
        map.put("class_path", client.told.name().toLowerCase(Locale.ROOT));
        map.put("libraries", client.libraries.stream().map(Path::getFileName).map(Path::toString).distinct().sorted().collect(Collectors.toList()));
        map.put("lacking", new ArrayList<>(client.lacking));
        map.put("missing", new ArrayList<>(client.missing));
        map.put("lost", client.lost().stream().map(AffectedReport::loss).collect(Collectors.toList()));
        map.put("lost_by_libraries", client.lostByLibraries);
        return map;
    }

    private static Map<String, Object> loss(Loss loss) {
        return Json.object("text", loss.text(), "act", loss.act, "class", loss.type, "member", loss.member, "receiver", loss.receiver, "error", loss.error, "in", new ArrayList<>(loss.in),
                "words", loss.words);
    }
}
