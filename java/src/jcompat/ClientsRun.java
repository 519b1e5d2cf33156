package jcompat;

import java.io.IOException;
import java.nio.file.Files;
import java.nio.file.InvalidPathException;
import java.nio.file.Path;
import java.util.ArrayList;
import java.util.Arrays;
import java.util.LinkedHashMap;
import java.util.List;
import java.util.Map;
import java.util.regex.Matcher;
import java.util.regex.Pattern;

/** Asks the program which of several clients lose what. Of a class file for which it refuses a client, the client is asked again without. */
final class ClientsRun {
    /** A client may have so many class files that are refused, one after the other. */
    private static final int MOST_ROUNDS = 20;
    private static final Pattern LINE = Pattern.compile("client (\\d+) (.*)");
    private static final Pattern FILE = Pattern.compile("jcompat: client: (?:name (\\S+) .*|(\\S+)\\.class: .*)");

    private final Program program;
    private final World world;
    private final Host host;

    ClientsRun(Program program, World world, Host host) {
        this.program = program;
        this.world = world;
        this.host = host;
    }

    /** Of clients and their folders. */
    void ask(Map<Client, Path> clients) throws IOException, Stop {
        Map<Client, Path> asked = new LinkedHashMap<>(clients);
        for (int round = 0; !asked.isEmpty() && round < MOST_ROUNDS; round++) {
            askOnce(asked);
            Map<Client, Path> again = new LinkedHashMap<>();
            for (Map.Entry<Client, Path> each : asked.entrySet()) {
                if (!each.getKey().isAsked() && leaveOut(each.getKey(), each.getValue())) {
                    again.put(each.getKey(), each.getValue());
                }
            }
            asked = again;
        }
    }

    private void askOnce(Map<Client, Path> clients) throws IOException, Stop {
        List<String> words = new ArrayList<>(Arrays.asList("clients", "--platform", world.platform.toString(), "--old", world.releases.get(0).folder.toString(),
                "--new", world.releases.get(1).folder.toString()));
        clients.values().forEach(folder -> words.add(folder.toString()));
        Program.Answer answer = program.run(words, host);
        if (answer.status > 1) {
            throw new Stop(answer.status, new Refusal(world, answer).advice(answer.status));
        }
        Map<Integer, List<String>> lines = new LinkedHashMap<>();
        for (String line : answer.text().split("\n")) {
            Matcher parts = LINE.matcher(line);
            if (parts.matches()) {
                lines.computeIfAbsent(Integer.valueOf(parts.group(1)), any -> new ArrayList<>()).add(parts.group(2));
            }
        }
        int number = 0;
        for (Client client : clients.keySet()) {
            client.refusal = null;
            List<String> said = lines.get(++number);
            if (said == null) {
                throw new Stop("jcompat ended without a line on " + client.name);
            }
            client.take(said);
        }
    }

    /** Whether there is a file to leave out. */
    private static boolean leaveOut(Client client, Path folder) throws IOException {
        Matcher parts = FILE.matcher(client.refusal);
        if (!parts.matches()) {
            return false;
        }
        String name = parts.group(1) != null ? parts.group(1) : parts.group(2);
        try {
            if (!Files.deleteIfExists(folder.resolve(Names.path(name)))) {
                return false;
            }
        } catch (InvalidPathException unmappable) {
            return false;
        }
        if (client.own.remove(name)) {
            client.refusedFiles.add(client.refusal);
        } else {
            client.missing.add(name);
        }
        return true;
    }
}
