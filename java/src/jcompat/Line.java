package jcompat;

import java.util.Arrays;

/** A finding, a collision, a warning, a dropped interface or a line on calls. The last three have no number; theirs is a place. */
final class Line {
    static final String WARNING = "warning";
    static final String DROPPED = "dropped";
    static final String CALL = "call";
    /** The kinds of lines on calls, which are their rules. */
    static final String REFERENCE = "reference";
    static final String ACCESS = "access";
    static final String JOINED = "joined";
    static final String CONSTANTS = "constants";

    final int number;
    final String rule;
    final String type;
    final String member;
    final String act;
    final String seat;
    final String error;
    /** The line without its number. */
    final String text;

    Line(String[] word) {
        this(word, String.join(" ", Arrays.asList(word).subList(1, 7)));
    }

    private Line(String[] word, String text) {
        number = Integer.parseInt(word[0]);
        rule = word[1];
        type = word[2];
        member = word[3];
        act = word[4];
        seat = word[5];
        error = word[6];
        this.text = text;
    }

    /** The same line with another number. */
    Line at(int place) {
        return new Line(new String[] {"" + place, rule, type, member, act, seat, error}, text);
    }

    static Line warning(int place, String type, String member, String kind) {
        return new Line(new String[] {"" + place, WARNING, type, member, kind, "-", "-"}, String.join(" ", WARNING, type, member, kind));
    }

    /** The member is the interface. */
    static Line dropped(int place, String type, String dropped) {
        return new Line(new String[] {"" + place, DROPPED, type, dropped, "-", "-", "-"}, String.join(" ", DROPPED, type, dropped));
    }

    /** The member of a line on a class is a hyphen, of one on joined classes the superclass. */
    static Line call(int place, String type, String member, String kind) {
        return new Line(new String[] {"" + place, kind, type, member, kind, "-", "-"}, String.join(" ", CALL, type, member, kind));
    }

    boolean isFinding() {
        return rule.charAt(0) == 'H';
    }

    /** A line on calls, of a kind that is known or not. */
    boolean isCall() {
        return text.startsWith(CALL + " ");
    }

    /** A warning, a dropped interface or a line on calls, of which no gate but <code>calls</code> knows anything. */
    boolean isFurther() {
        return rule.equals(WARNING) || rule.equals(DROPPED) || isCall();
    }

    /** <code>finding</code>, <code>collision</code>, <code>warning</code>, <code>dropped</code> or <code>call</code>. */
    String kind() {
        return isCall() ? CALL : isFurther() ? rule : isFinding() ? "finding" : "collision";
    }

    /** On an assignment in which a class takes part that clients can't name. */
    boolean isOfHidden() {
        return act.equals("assign") && !seat.equals("-");
    }

    /** A collision on a member with a name that compilers make. */
    boolean isMade() {
        return !isFinding() && !isFurther() && Names.member(member).contains("$");
    }

    @Override
    public String toString() {
        return isFurther() ? text : number + " " + text;
    }
}
