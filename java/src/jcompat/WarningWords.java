package jcompat;

/** What happened to the method of a warning, in words, and a client that breaks by it: one that was compiled with the old release. */
final class WarningWords {
    enum Happened { LOST, ABSTRACT_IN_CLASS, ABSTRACT_ADDED, ELEMENT_ADDED, DEFAULT_ADDED, DEFAULT_REMOVED, DEFAULT_GIVEN, GONE, MOVED, ELSEWHERE, REORDERED }

    final Happened happened;
    private final Line line;
    private final Declaration before;
    private final Declaration now;
    private final String type;
    private final boolean isClass;

    WarningWords(Line line, Classes oldRelease, Classes newRelease) {
        this.line = line;
        before = oldRelease.declaration(line.type, line.member);
        now = newRelease.declaration(line.type, line.member);
        type = Names.simple(line.type);
        ClassFile file = oldRelease.find(line.type);
        isClass = file == null || !file.is(ClassFile.INTERFACE);
        happened = line.act.equals("lost") ? Happened.LOST : line.act.equals("abstract") ? Happened.ABSTRACT_IN_CLASS : ofDefaults(newRelease);
    }

    private Happened ofDefaults(Classes newRelease) {
        if (now == null) {
            return Happened.GONE;
        }
        if (before == null) {
            return now.file.is(ClassFile.ANNOTATION) ? Happened.ELEMENT_ADDED : now.isAbstract() ? Happened.ABSTRACT_ADDED : Happened.DEFAULT_ADDED;
        }
        if (before.isAbstract() != now.isAbstract()) {
            return now.isAbstract() ? Happened.DEFAULT_REMOVED : Happened.DEFAULT_GIVEN;
        }
        if (before.file.name.equals(now.file.name)) {
            return Happened.REORDERED;
        }
        // of a default that moved up, a class may get an abstract one from an interface below the new place
        boolean isAbove = newRelease.chain(before.file.name).stream().anyMatch(file -> file.name.equals(now.file.name));
        return now.isAbstract() && isAbove ? Happened.MOVED : Happened.ELSEWHERE;
    }

    private String below() {
        return "classes that " + (isClass ? "extend " : "implement ") + type;
    }

    /** What is so in the new release; the method is as <code>void draw()</code>. */
    String said(String method) {
        String fails = ": " + below() + " without it fail when it is called";
        String conflicts = ": " + below() + " and get one from elsewhere too fail when it is called, or run another";
        switch (happened) {
            case LOST:
                return (isClass ? "class " : "interface ") + type + " gives classes no method " + method + " to run any more";
            case ABSTRACT_IN_CLASS:
                return (isClass ? "class " : "interface ") + type + " has an abstract method " + method + " now" + fails;
            case ABSTRACT_ADDED:
                return "abstract method " + method + " was added" + fails;
            case ELEMENT_ADDED:
                return "element " + method + " was added to the annotation " + type + (now.attributes().has("AnnotationDefault")
                        ? ", with a default: breaks only classes that implement the annotation themselves"
                        : ", without a default: who asks for it of code that was compiled before gets IncompleteAnnotationException");
            case DEFAULT_ADDED:
                return "default method " + method + " was added" + conflicts;
            case DEFAULT_REMOVED:
                return "the default of " + method + " was removed" + fails;
            case DEFAULT_GIVEN:
                return method + " has a default now" + conflicts;
            case GONE:
                return type + " no longer gives classes " + method;
            case MOVED:
                return method + " moved to the superinterface " + Names.simple(now.file.name) + ": no call breaks";
            case ELSEWHERE:
                return type + " gives classes " + method + " of " + Names.simple(now.file.name) + ", and gave that of " + Names.simple(before.file.name) + conflicts;
            default:
                return "the interfaces from which " + type + " has " + method + " extend each other otherwise" + conflicts;
        }
    }

    /** A client that breaks, or nothing where none does; the call is as <code>draw()</code>. */
    String client(String call) {
        String below = "class Y " + (isClass ? "extends " : "implements ") + type;
        switch (happened) {
            case MOVED:
                return "";
            case DEFAULT_ADDED: case DEFAULT_GIVEN: case ELSEWHERE: case REORDERED:
                return below + (isClass ? " implements J" : ", J") + " { }, where J has a default method " + Names.member(line.member) + " too, and " + calls(call);
            case ELEMENT_ADDED:
                return now.attributes().has("AnnotationDefault") ? below + " { }, and " + calls(call) : "@" + type + " class Y { }, of which the library asks for " + call;
            default:
                return below + " { }, without a method " + Names.member(line.member) + " of its own, and " + calls(call);
        }
    }

    /** What the old release doesn't have no old client calls. */
    private String calls(String call) {
        return before == null ? "the library calls " + call + " on it" : call + " is called on it";
    }
}
