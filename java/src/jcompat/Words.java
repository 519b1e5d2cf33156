package jcompat;

import java.util.ArrayList;
import java.util.Arrays;
import java.util.HashSet;
import java.util.List;
import java.util.Set;
import java.util.stream.Collectors;

/** Says lines in words and in Java. */
final class Words {
    private final Classes oldRelease;
    private final Classes newRelease;
    private static final Set<String> KNOWN = new HashSet<>(Arrays.asList("H1", "H2", "H3", "H4", "H5", "H6", "H7", "H8", "H9", "Constant", "Capture", "Final",
            Line.WARNING, Line.DROPPED, Line.REFERENCE, Line.ACCESS, Line.JOINED, Line.CONSTANTS));

    Words(Classes oldRelease, Classes newRelease) {
        this.oldRelease = oldRelease;
        this.newRelease = newRelease;
    }

    /** What the line is one of, of which the first is explained: its rule, of a warning what happened. */
    String kind(Line line) {
        return line.rule.equals(Line.WARNING) ? new WarningWords(line, oldRelease, newRelease).happened.name() : line.rule;
    }

    /** Whether both releases have the class. */
    boolean has(String type) {
        return oldRelease.find(type) != null && newRelease.find(type) != null;
    }

    /** The same of a line that may be of a newer jcompat, or of other releases than these. */
    List<String> safely(Line line) {
        if (KNOWN.contains(line.rule) && (!line.rule.equals("H2") || has(line.type))) {
            return say(line);
        }
        return Arrays.asList(Html.dotted(line.type) + ": a client ends with " + line.error, line.text);
    }

    /** What is so in the new release, and a client that breaks; the second is empty where none does. */
    List<String> say(Line line) {
        ClassFile now = newRelease.find(line.type);
        String type = Names.simple(line.type);
        String variable = variable(line.type);
        switch (line.rule) {
            case "H1":
                return Arrays.asList(kind(line.type) + " " + type + " " + gone(line, now), "Object object = (" + type + ") other;");
            case "H2":
                return Arrays.asList(kind(line.type) + " " + type + " can no longer be " + (line.act.equals("extend") ? "extended" : "implemented") + ": it is "
                        + (now.is(ClassFile.INTERFACE) != oldRelease.find(line.type).is(ClassFile.INTERFACE) ? now.is(ClassFile.INTERFACE) ? "an interface"
                        : "a class" : now.is(ClassFile.FINAL) ? "final" : newRelease.isModule() ? "sealed, in a module" : "sealed"),
                        "class Y " + (line.act.equals("extend") ? "extends " : "implements ") + type + " { }");
            case "H3":
                if (line.isOfHidden()) {
                    return Arrays.asList(type + ", which clients can't name but give values for, was an interface and " + (now == null ? "is gone" : "is a class") + seat(line),
                            "the.takes(other), where takes(" + type + ")");
                }
                return Arrays.asList(type + " was an interface and is a class", type + " first(Other other) { return other; }");
            case "H4":
                if (line.isOfHidden()) {
                    return Arrays.asList("class " + type + (now == null ? " is gone, and" : "") + " no longer has the superclass " + Names.simple(line.member)
                            + "; clients hold values of them without naming them" + seat(line),
                            "the.takes(the.gives()), where " + type + " gives(), takes(" + Names.simple(line.member) + ")");
                }
                return Arrays.asList("class " + type + " no longer has the superclass " + Names.simple(line.member),
                        Names.simple(line.member) + " first(" + type + " " + variable + ") { return " + variable + "; }");
            case "H5":
                Signature constructor = new Signature(line.member, false);
                return Arrays.asList("constructor " + declared(line) + " " + closed(line, now),
                        line.act.equals("new") ? "new " + type + "(" + constructor.values() + ");"
                                : "class Y extends " + type + " { Y() { super(" + constructor.values() + "); } }");
            case "H6":
                return Arrays.asList("method " + declaration(line) + " is final now", subclass(line, "@Override "));
            case "H7":
                String field = (line.act.endsWith("static") ? type : variable) + "." + Names.member(line.member);
                Signature of = new Signature(line.member, false);
                return Arrays.asList("field " + declaration(line) + " " + closed(line, now) + seat(line),
                        line.act.startsWith("get") ? of.result + " value = " + field + ";" : field + " = " + value(of.result) + ";");
            case "H8":
                return Arrays.asList("method " + declaration(line) + " " + closed(line, now) + seat(line),
                        (line.act.contains("static") ? type : variable) + "." + call(line) + ";");
            case "H9":
                return Arrays.asList("interface " + type + " no longer has the method " + declared(line) + there(line),
                        "interface J extends " + type + " { }   j." + call(line) + ";");
            case "Constant":
                return Arrays.asList("interface " + type + " has a new field " + declared(line),
                        "class Y extends Z implements " + type + " { }   y." + Names.member(line.member) + ", which Z has too");
            case "Capture":
                return Arrays.asList("class " + type + " has a new method " + declared(line) + ", which isn't a public instance method",
                        "class Y extends " + type + " implements J { }   y." + call(line) + ", which J has as a default method");
            case Line.WARNING:
                WarningWords warning = new WarningWords(line, oldRelease, newRelease);
                return Arrays.asList(warning.said(declared(line)), warning.client(call(line)));
            case Line.DROPPED:
                return Arrays.asList(kind(line.type) + " " + type + " no longer " + (kind(line.type).equals("class") ? "implements " : "extends ") + Names.simple(line.member),
                        isNamed(line.member) ? throughInterface(line.member, variable) : "the.takes(" + variable + "), where takes(" + Names.simple(line.member) + ")");
            case Line.REFERENCE: case Line.ACCESS: case Line.JOINED: case Line.CONSTANTS:
                CallWords onCalls = new CallWords(line, oldRelease, newRelease);
                return Arrays.asList(onCalls.said(), onCalls.client(variable));
            default:
                return Arrays.asList("class " + type + " has a new final method " + declared(line), subclass(line, ""));
        }
    }

    /** A call through an interface, or a cast to one that has no method to call. */
    private String throughInterface(String type, String variable) {
        for (ClassFile file : newRelease.chain(type)) {
            for (Member member : file.methods()) {
                if (file.is(ClassFile.INTERFACE) && (member.flags & (ClassFile.STATIC | ClassFile.PRIVATE)) == 0) {
                    return Names.simple(type) + " i = " + variable + ";   i." + member.name + "(" + new Signature(member.name + member.type, false).values() + ");";
                }
            }
        }
        return Names.simple(type) + " i = (" + Names.simple(type) + ") (Object) " + variable + ";";
    }

    /** Whether clients can name the type; the platform's they can. */
    private boolean isNamed(String type) {
        ClassFile file = oldRelease.find(type);
        return file == null || file.is(ClassFile.PUBLIC) && !oldRelease.isUnexported(type);
    }

    private String kind(String type) {
        ClassFile file = oldRelease.find(type);
        return file != null && file.is(ClassFile.INTERFACE) ? "interface" : "class";
    }

    private String gone(Line line, ClassFile now) {
        if (now == null) {
            return "is gone";
        }
        if (!now.is(ClassFile.PUBLIC)) {
            return "is no longer public";
        }
        Set<String> missing = newRelease.missingAbove(line.type);
        if (missing.isEmpty() && line.error.equals("IllegalAccessError") && newRelease.isUnexported(line.type)) {
            return "is in a package that its module doesn't export";
        }
        return "doesn't load any more: " + (missing.isEmpty() ? line.error : "there is no " + String.join(", ", missing));
    }

    /** Why a member is closed. */
    private String closed(Line line, ClassFile now) {
        if (line.error.startsWith("NoSuch")) {
            return "is gone" + there(line);
        }
        if (line.error.equals("InstantiationError")) {
            return "isn't for new any more: the class is abstract";
        }
        Member member = now == null ? null : member(line);
        if (member == null) {
            return "can't be used any more (" + line.error + ")";
        }
        if (line.error.equals("IncompatibleClassChangeError")) {
            boolean isStatic = (member.flags & ClassFile.STATIC) != 0;
            return isStatic == line.act.contains("static") ? now.is(ClassFile.INTERFACE) ? "belongs to an interface now" : "belongs to a class now"
                    : isStatic ? "is static now" : "isn't static any more";
        }
        if (line.act.startsWith("put") && (member.flags & ClassFile.FINAL) != 0) {
            return "is final now";
        }
        int access = member.flags & (ClassFile.PUBLIC | ClassFile.PRIVATE | ClassFile.PROTECTED);
        return access == ClassFile.PUBLIC ? "is no longer accessible: it comes from a class that isn't"
                : "is " + (access == ClassFile.PRIVATE ? "private" : access == ClassFile.PROTECTED ? "protected" : "package-private") + " now";
    }

    private Member member(Line line) {
        Declaration now = newRelease.declaration(line.type, line.member);
        return now == null ? null : now.member;
    }

    /** What else of the name the new release has for clients, nearest first. */
    private List<String> others(Line line) {
        List<String> others = new ArrayList<>();
        for (ClassFile file : newRelease.chain(line.type)) {
            for (Member member : line.member.contains("(") ? file.methods() : file.fields()) {
                boolean open = (member.flags & (ClassFile.PUBLIC | ClassFile.PROTECTED)) != 0 && (member.flags & ClassFile.SYNTHETIC) == 0;
                boolean own = !member.name.equals("<init>") || file.name.equals(line.type);
                String text = member.text();
                if (open && own && member.name.equals(Names.member(line.member)) && !others.contains(text)) {
                    others.add(text);
                }
            }
        }
        return others;
    }

    /** Whether another one is the same without packages. */
    private boolean isAmbiguous(Line line) {
        String plain = new Signature(line.member, false).declared("");
        return others(line).stream().anyMatch(text -> !text.equals(line.member) && new Signature(text, false).declared("").equals(plain));
    }

    private String there(Line line) {
        List<String> others = others(line);
        boolean whole = isAmbiguous(line);
        return others.isEmpty() ? "" : "; there is " + others.stream().limit(3).map(text -> new Signature(text, whole).declared(Names.simple(line.type)))
                .collect(Collectors.joining(", ")) + (others.size() > 3 ? " and " + (others.size() - 3) + " more" : "");
    }

    private static String seat(Line line) {
        return line.seat.equals("java/lang/Object") || line.seat.equals("-") ? "" : ", in a subclass of " + Names.simple(line.seat);
    }

    private String declaration(Line line) {
        Signature of = new Signature(line.member, isAmbiguous(line));
        return of.result + " " + Names.simple(line.type) + "." + of.name + (of.isMethod ? "(" + of.parameters() + ")" : "");
    }

    private String declared(Line line) {
        return new Signature(line.member, isAmbiguous(line)).declared(Names.simple(line.type));
    }

    private static String call(Line line) {
        Signature of = new Signature(line.member, false);
        return of.name + "(" + of.values() + ")";
    }

    private static String subclass(Line line, String before) {
        Signature of = new Signature(line.member, false);
        return "class Y extends " + Names.simple(line.type) + " { " + before + "public " + of.result + " " + of.name + "(" + of.named() + ") { ... } }";
    }

    static String variable(String type) {
        String simple = Names.simple(type);
        String last = simple.substring(simple.lastIndexOf('.') + 1);
        return Character.toLowerCase(last.charAt(0)) + last.substring(1);
    }

    static String value(String type) {
        switch (type) {
            case "boolean":
                return "false";
            case "byte": case "char": case "double": case "float": case "int": case "long": case "short":
                return "0";
            default:
                return "(" + type + ") null";
        }
    }
}
