package jcompat;

import java.io.IOException;
import java.util.ArrayList;
import java.util.Arrays;
import java.util.List;

/** Finds the versions that --from and --to don't say in the names of the two releases, or else says why there are none. */
final class Versions {
    private final Program program;
    private final Request request;
    private final Host host;

    Versions(Program program, Request request, Host host) {
        this.program = program;
        this.request = request;
        this.host = host;
    }

    /** The options that hand them on. */
    List<String> options() throws IOException, Stop {
        boolean given = request.from != null || request.to != null;
        if (request.has("--from") || request.has("--to")) {
            if (given) {
                throw new Stop("versions stand before -- and behind it");
            }
            return new ArrayList<>();
        }
        if (request.due && request.from != null && request.to == null && inName(request.releases.get(1).toString()) == null) {
            return new ArrayList<>();
        }
        String oldName = request.releases.get(0).toString();
        String newName = request.releases.get(1).toString();
        String from = request.from == null ? inName(oldName) : request.from;
        String to = request.to == null ? inName(newName) : request.to;
        String why = null;
        if (from == null || to == null) {
            String lacks = "the name of " + (from == null ? oldName : newName) + " has none as 1.2.3";
            if (given) {
                throw new Stop("one version is given, and " + lacks + ": give it by " + (from == null ? "--from" : "--to"));
            }
            why = lacks;
        } else if (!given && !program.judge(pair(from, to)).said.stream().noneMatch(line -> line.contains("usage: "))) {
            why = to + " isn't later than " + from;
            if (!from.equals(to)) {
                host.say(why + ": are the old and the new release swapped?");
                return new ArrayList<>();
            }
        }
        if (why == null) {
            return pair(from, to);
        }
        // without the gate nobody asks for versions
        if (Gates.asked(request.options).contains("version")) {
            host.say("no versions are handed on, since " + why);
        }
        return new ArrayList<>();
    }

    /** The version of a release, by its index, where it is given or in the name; or null. */
    String known(int index) throws IOException, Stop {
        String given = index == 0 ? request.from : request.to;
        given = given == null ? request.value(index == 0 ? "--from" : "--to") : given;
        return given == null ? inName(request.releases.get(index).toString()) : given;
    }

    private static List<String> pair(String from, String to) {
        return new ArrayList<>(Arrays.asList("--from", from, "--to", to));
    }

    private static String base(String name) {
        return name.substring(name.lastIndexOf('/') + 1);
    }

    /** The version in the name of a jar, which is the longest text behind a hyphen that jcompat takes as one. */
    private String inName(String name) throws IOException, Stop {
        String text = base(name).replaceFirst("\\.[jw]ar$", "");
        for (int at = text.indexOf('-'); at >= 0; at = text.indexOf('-', at + 1)) {
            String version = text.substring(at + 1);
            if (!version.isEmpty() && Character.isDigit(version.charAt(0)) && isVersion(version)) {
                return version;
            }
        }
        return null;
    }

    /** Of two that are the same and are versions, jcompat says that the second isn't later. */
    private boolean isVersion(String text) throws IOException, Stop {
        return program.judge(pair(text, text)).said.contains("jcompat: usage: versions " + text + " " + text);
    }
}
