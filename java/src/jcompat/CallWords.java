package jcompat;

import java.util.ArrayList;
import java.util.List;
import java.util.Set;
import java.util.stream.Collectors;

/** What a line on calls says in words, with what is safe in its place, and a client that breaks by it: one that was compiled with the old release. */
final class CallWords {
    /** So many values of a type are named in a switch. */
    private static final int MOST = 3;

    private final Line line;
    private final Classes oldRelease;
    private final Classes newRelease;
    private final String type;

    CallWords(Line line, Classes oldRelease, Classes newRelease) {
        this.line = line;
        this.oldRelease = oldRelease;
        this.newRelease = newRelease;
        type = Names.simple(line.type);
    }

    /** What is so in the new release, and what to do instead. */
    String said() {
        switch (line.rule) {
            case Line.REFERENCE:
                return saidOfReference();
            case Line.ACCESS:
                return saidOfAccess();
            case Line.JOINED:
                return saidOfJoined();
            default:
                return saidOfConstants();
        }
    }

    /** A client that breaks, or nothing where none does; the variable is one of the type. */
    String client(String variable) {
        switch (line.rule) {
            case Line.REFERENCE:
                return clientOfReference(variable);
            case Line.ACCESS:
                return clientOfAccess(variable);
            case Line.JOINED:
                return clientOfJoined(variable);
            default:
                return clientOfConstants(variable);
        }
    }

    /** How it fails. */
    static String fails(Line line) {
        switch (line.rule) {
            case Line.REFERENCE:
                return "a method reference, where the code comes to it, ends with BootstrapMethodError";
            case Line.ACCESS:
                return "a call through the interface, of a subclass's method that isn't public, ends with IllegalAccessError";
            case Line.JOINED:
                return "a class that uses objects of the one or of another is refused with VerifyError, or with NoClassDefFoundError where the superclass is gone";
            case Line.CONSTANTS:
                return "a switch that meets what it doesn't list ends with IncompatibleClassChangeError, and compiled for Java 21 or later with MatchException";
            default:
                return "a call, when it runs";
        }
    }

    // ---- method references

    private String saidOfReference() {
        Signature of = new Signature(line.member, false);
        Declaration hidden = hidden();
        String method = "method " + of.result + " " + type + "." + of.name + "(" + of.parameters() + ")"
                + (hidden == null ? " comes from a class that clients can't name" : " moved to " + Names.simple(hidden.file.name) + ", which clients can't name");
        return method + (hidden != null && hidden.isAbstract() ? ": declare it in " + type + " too" : ": leave a method " + of.name + " in " + type + " that calls it");
    }

    /** The declaration that clients can't name; null where none is seen. */
    private Declaration hidden() {
        for (ClassFile file : newRelease.chain(line.type)) {
            if (!file.is(ClassFile.PUBLIC) || newRelease.isUnexported(file.name)) {
                for (Member member : file.methods()) {
                    if (member.text().equals(line.member)) {
                        return new Declaration(file, member);
                    }
                }
            }
        }
        return null;
    }

    private String clientOfReference(String variable) {
        Declaration before = oldRelease.declaration(line.type, line.member);
        boolean isStatic = before != null && before.member.is(ClassFile.STATIC);
        return "takes(" + (isStatic ? type : variable) + "::" + Names.member(line.member) + ");";
    }

    // ---- less access

    private String saidOfAccess() {
        ClassFile from = called();
        String method = "class " + type + " has " + new Signature(line.member, false).declared(type);
        if (from == null) {
            return method + " from an interface now: a subclass's own that isn't public can't be called through that";
        }
        String name = Names.simple(from.name);
        boolean isThere = oldRelease.chain(line.type).stream().anyMatch(file -> file.name.equals(from.name));
        return method + " from the interface " + name + " now: a subclass's own that isn't public can't be called through " + name + "; "
                + (isThere ? "give the method another name" : "let another class implement that");
    }

    /** The first interface above the class that declares the method; null where none is seen. */
    private ClassFile called() {
        for (ClassFile file : newRelease.chain(line.type)) {
            boolean declares = file.methods().stream().anyMatch(member -> member.text().equals(line.member) && !member.is(ClassFile.STATIC) && !member.is(ClassFile.PRIVATE));
            if (file.is(ClassFile.INTERFACE) && declares) {
                return file;
            }
        }
        return null;
    }

    private String clientOfAccess(String variable) {
        Signature of = new Signature(line.member, false);
        ClassFile from = called();
        return "class Y extends " + type + " { " + of.result + " " + of.name + "(" + of.named() + ") { ... } }   ((" + (from == null ? "I" : Names.simple(from.name)) + ") y)." + of.name
                + "(" + of.values() + ");";
    }

    // ---- joined classes

    private String saidOfJoined() {
        String above = Names.simple(line.member);
        String left = newRelease.find(line.member) == null ? "class " + above + ", above " + type + ", is gone" : "class " + type + " no longer extends " + above;
        return left + ", which clients can't name: one that uses a " + type + " or another of its subclasses fails; keep it above both";
    }

    /** A choice between the class and one beside it; of several such the first in order. */
    private String clientOfJoined(String variable) {
        return oldRelease.names().stream().filter(this::isBeside).findFirst()
                .map(other -> "Object o = isSo ? " + variable + " : " + Words.variable(other) + ";   // " + Names.simple(other) + " extends " + Names.simple(line.member)).orElse("");
    }

    /** Whether clients can name the class, and it has the superclass too, and neither it nor the line's class is above the other. */
    private boolean isBeside(String name) {
        Set<String> above = oldRelease.above(name);
        return oldRelease.isNameable(name) && above.contains(line.member) && !above.contains(line.type) && !name.equals(line.type) && !oldRelease.above(line.type).contains(name);
    }

    // ---- values of a type

    private String saidOfConstants() {
        List<String> more = values(newRelease.find(line.type));
        more.removeAll(values(oldRelease.find(line.type)));
        String fails = ": a switch over all that were there fails when it meets ";
        ClassFile now = newRelease.find(line.type);
        if (now != null && now.is(ClassFile.ENUM)) {
            return "enum " + type + " has " + several(more, "the constant ", "constants") + " now" + fails + "another; give new ones only to clients that ask for them";
        }
        return type + (more.isEmpty() ? " is no longer sealed" : " permits " + several(more, "", "subclasses") + " now") + fails
                + "an object of another; let a new class extend one that was permitted";
    }

    private static String several(List<String> names, String one, String what) {
        return names.size() == 1 ? one + names.get(0) : names.size() + " more " + what + (names.isEmpty() ? "" : ", as " + names.get(0));
    }

    /** The constants of an enum, or else the classes that a type permits. */
    private static List<String> values(ClassFile file) {
        List<String> values = new ArrayList<>();
        if (file != null && file.is(ClassFile.ENUM)) {
            file.fields().stream().filter(field -> field.is(ClassFile.ENUM)).forEach(field -> values.add(field.name));
        } else if (file != null) {
            file.attributes().permitted().forEach(permitted -> values.add(Names.simple(permitted)));
        }
        return values;
    }

    private String clientOfConstants(String variable) {
        ClassFile before = oldRelease.find(line.type);
        String label = before != null && before.is(ClassFile.ENUM) ? " -> 1;" : " v -> 1;";
        List<String> values = values(before);
        return "int i = switch (" + variable + ") { " + values.stream().limit(MOST).map(value -> "case " + value + label + " ").collect(Collectors.joining())
                + (values.size() > MOST ? "... " : "") + "};";
    }
}
