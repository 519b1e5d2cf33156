package jcompat;

import java.nio.file.Files;
import java.nio.file.Path;
import java.nio.file.Paths;
import java.util.List;

/** The words of the command line. */
final class Arguments {
    private final List<String> words;
    private int at;

    Arguments(List<String> words) {
        this.words = words;
    }

    private static String see() {
        return ": see " + System.getProperty("jcompat.name", "jcompat check") + " --help";
    }

    private String value() throws Stop {
        String option = words.get(at);
        if (at + 1 >= words.size()) {
            throw new Stop(option + " needs a word behind it" + see());
        }
        return words.get(++at);
    }

    Request check() throws Stop {
        Request request = new Request();
        request.program = path(System.getProperty("jcompat.program"));
        request.jdk = path(System.getenv("JAVA_HOME"));
        for (; at < words.size(); at++) {
            String word = words.get(at);
            if (word.equals("--")) {
                request.options.addAll(words.subList(at + 1, words.size()));
                break;
            }
            if (!word.startsWith("-")) {
                request.releases.add(Paths.get(word));
            } else {
                take(word, request);
            }
        }
        judge(request);
        return request;
    }

    private static Path path(String text) {
        return text == null || text.isEmpty() ? null : Paths.get(text);
    }

    private void take(String option, Request request) throws Stop {
        switch (option) {
            case "--with": request.with.add(Paths.get(value())); break;
            case "--without": request.without.add(value()); break;
            case "--from": request.from = value(); break;
            case "--to": request.to = value(); break;
            case "--accepted": request.accepted = Paths.get(value()); break;
            case "--report": request.report = Paths.get(value()); break;
            case "--page": request.page = Paths.get(value()); break;
            case "--jdk": request.jdk = Paths.get(value()); break;
            case "--cache": request.cache = Paths.get(value()); break;
            case "--needed": request.needed = true; break;
            case "--row": request.row = true; break;
            case "--no-warn": request.warn = false; break;
            case "--no-dropped": request.dropped = false; break;
            case "--no-calls": request.calls = false; break;
            case "--no-modular": request.views = Request.Views.CLASS_PATH; break;
            case "--modular": request.views = Request.Views.MODULES; break;
            case "--json": request.json = true; break;
            case "--java": request.java = java(value()); break;
            // those of jcompat that nothing else has the names of
            case "--witness": case "--gate": request.options.addAll(List.of(option, value())); break;
            case "--signatures": request.options.add(option); break;
            case "--whole": request.whole = true; break;
            case "--strict": request.strict = true; break;
            case "--explain": request.explain = Request.Explain.ALL; break;
            case "--no-explain": request.explain = Request.Explain.NONE; break;
            case "--due": request.due = true; break;
            case "--added": request.added = true; break;
            case "--sarif": request.sarif = Paths.get(value()); break;
            case "--sources": request.sources.add(Paths.get(value())); break;
            default: throw new Stop("there is no option " + option + " (those of jcompat stand behind --)" + see());
        }
    }

    private static int java(String text) throws Stop {
        if (!text.matches("(1\\.)?[1-9][0-9]{0,2}")) {
            throw new Stop(text + ", behind --java, is no version of Java, as 17" + see());
        }
        return Integer.parseInt(text.replaceFirst("^1\\.", ""));
    }

    private static void judge(Request request) throws Stop {
        int count = request.releases.size();
        if (request.accepted != null && !(Files.isRegularFile(request.accepted) && Files.isReadable(request.accepted))) {
            throw new Stop(request.accepted + ", which has the accepted breaks, can't be read");
        }
        if (request.row) {
            if (count < 2 || count > 20) {
                throw new Stop("a row has from 2 to 20 releases, and not " + count + see());
            }
            boolean isOfTwo = request.accepted != null || request.from != null || request.to != null || request.strict || request.json || request.java != 0 || request.page != null
                    || request.due || request.added || request.sarif != null;
            if (!request.options.isEmpty() || isOfTwo || request.views == Request.Views.MODULES) {
                throw new Stop("--accepted, --from, --to, --strict and options behind -- are for two releases, and not for a row; nor are --added, --due, --gate, --java, --json, --modular, --page, --sarif and --witness" + see());
            }
        } else if (count < 2) {
            throw new Stop("two jars are needed, of the old and of the new release" + see());
        } else if (count > 2) {
            throw new Stop("there is a third release, " + request.releases.get(2) + " (other libraries have --with before them; a row has --row)" + see());
        }
    }

    /** OLD NEW CLIENT.. [--with PLACE].. and so on */
    AffectedRequest affected() throws Stop {
        AffectedRequest request = new AffectedRequest();
        request.program = path(System.getProperty("jcompat.program"));
        request.jdk = path(System.getenv("JAVA_HOME"));
        for (; at < words.size(); at++) {
            String word = words.get(at);
            if (word.startsWith("-")) {
                take(word, request);
            } else if (request.oldRelease == null) {
                request.oldRelease = Paths.get(word);
            } else if (request.newRelease == null) {
                request.newRelease = Paths.get(word);
            } else {
                request.clients.add(Paths.get(word));
            }
        }
        if (request.clients.isEmpty()) {
            throw new Stop("the old release, the new one and clients are needed" + see());
        }
        return request;
    }

    private void take(String option, AffectedRequest request) throws Stop {
        switch (option) {
            case "--with": request.with.add(Paths.get(value())); break;
            case "--without": request.without.add(value()); break;
            case "--tree": request.trees.add(Paths.get(value())); break;
            case "--repository": request.repository = Paths.get(value()); break;
            case "--json": request.json = true; break;
            case "--page": request.page = Paths.get(value()); break;
            case "--whole": request.whole = true; break;
            case "--needed": request.needed = true; break;
            case "--jdk": request.jdk = Paths.get(value()); break;
            case "--cache": request.cache = Paths.get(value()); break;
            default: throw new Stop("there is no option " + option + see());
        }
    }

    /** REPORT OLD NEW [--witness FOLDER] [--title TEXT] */
    void page(PageCommand page) throws Stop {
        for (; at < words.size(); at++) {
            String word = words.get(at);
            if (word.equals("--witness")) {
                page.witnesses = Paths.get(value());
            } else if (word.equals("--title")) {
                page.title = value();
            } else if (word.startsWith("-")) {
                throw new Stop("there is no option " + word + see());
            } else if (page.report == null) {
                page.report = Paths.get(word);
            } else if (page.oldRelease == null) {
                page.oldRelease = Paths.get(word);
            } else if (page.newRelease == null) {
                page.newRelease = Paths.get(word);
            } else {
                throw new Stop("there is a fourth file, " + word + see());
            }
        }
        if (page.newRelease == null) {
            throw new Stop("a report and the two releases are needed" + see());
        }
    }
}
