package jcompat;

import java.util.Set;
import java.util.TreeSet;

/** Something that links with the old release in classes of a client, and doesn't with the new one. */
final class Loss {
    /** As the program names it, as <code>invokevirtual</code>; <code>load</code> where the client's own class doesn't load. */
    final String act;
    /** The class that is used, or null where the client's own class doesn't load. */
    final String type;
    /** Null where the class itself is used. */
    final String member;
    final String receiver;
    final String error;
    /** Why, in words; null where there are none. */
    String words;
    /** The classes of the client in which it is. */
    final Set<String> in = new TreeSet<>();

    /** Of the words of a line, as <code>class NAME ERROR</code> or <code>item NAME ACT CLASS MEMBER RECEIVER ERROR</code>. */
    Loss(String[] word) {
        boolean isItem = word[0].equals("item");
        act = isItem ? word[2] : "load";
        type = isItem ? word[3] : null;
        member = isItem ? given(word[4]) : null;
        receiver = isItem ? given(word[5]) : null;
        error = word[isItem ? 6 : 2];
    }

    private static String given(String word) {
        return word.equals("-") ? null : word;
    }

    /** As the program has it, without the client's class. */
    String text() {
        return type == null ? "class doesn't load: " + error
                : String.join(" ", act, type, member == null ? "-" : member, receiver == null ? "-" : receiver, error);
    }

    /** The same, with one of the classes in which it is. */
    String textWithPlace() {
        return text() + ", in " + (in.size() == 1 ? "" : in.size() + " classes, as ") + in.iterator().next();
    }
}
