package jcompat;

/** A class or a member that clients can name in the new release and couldn't in the old one, or that is deprecated now. */
final class Added {
    /** Added, protected before and public now, or deprecated. */
    enum Kind { ADDED, OPENED, DEPRECATED }

    final Kind kind;
    final String type;
    /** Null of the class itself. */
    final String member;
    /** How many others only say the same of classes below this one. */
    int folded;

    Added(Kind kind, String type, String member) {
        this.kind = kind;
        this.type = type;
        this.member = member;
    }

    /** As <code>added shapes/Canvas fill()V</code>. */
    String text() {
        return kind.name().toLowerCase(java.util.Locale.ROOT) + " " + type + (member == null ? "" : " " + member);
    }

    String printed() {
        return text() + (folded == 0 ? "" : " (and through " + folded + (folded == 1 ? " subclass)" : " subclasses)"));
    }

    String words(Classes newRelease) {
        String did = kind == Kind.ADDED ? " was added" : kind == Kind.OPENED ? " is public now, and was protected" : " is deprecated now";
        if (member == null) {
            return (newRelease.find(type).is(ClassFile.INTERFACE) ? "interface " : "class ") + Names.simple(type) + did;
        }
        Signature of = new Signature(member, false);
        String simple = Names.simple(type);
        return member.startsWith("<init>") ? "constructor " + of.declared(simple) + did
                : (of.isMethod ? "method " : "field ") + of.result + " " + simple + "." + of.name + (of.isMethod ? "(" + of.parameters() + ")" : "") + did;
    }
}
