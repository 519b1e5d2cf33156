package jcompat;

import java.util.ArrayList;
import java.util.HashMap;
import java.util.List;
import java.util.Map;

/** The attributes that stand at a place of a class file: of the class, a field, a method or code (JVMS 4.7). */
final class Attributes {
    private final ClassFile file;
    /** To each name the place of its content. */
    private final Map<String, Integer> places = new HashMap<>();

    Attributes(ClassFile file, int from) {
        this.file = file;
        int place = from + 2;
        for (int i = file.number(from); i > 0; i--) {
            places.put(file.text(file.number(place)), place + 6);
            place += 6 + file.length(place + 2);
        }
    }

    boolean has(String name) {
        return places.containsKey(name);
    }

    /** The name of the source, without its package (JVMS 4.7.10), or null. */
    String source() {
        return has("SourceFile") ? file.text(file.number(places.get("SourceFile"))) : null;
    }

    /** The names of the subclasses that a sealed class permits (JVMS 4.7.31); none of another. */
    List<String> permitted() {
        List<String> names = new ArrayList<>();
        if (has("PermittedSubclasses")) {
            int place = places.get("PermittedSubclasses");
            for (int i = 1; i <= file.number(place); i++) {
                names.add(file.className(file.number(place + 2 * i)));
            }
        }
        return names;
    }

    /** Of a method the first line that its code comes from (JVMS 4.7.12); 0 where it says none. */
    int firstLine() {
        if (!has("Code")) {
            return 0;
        }
        int handlers = places.get("Code") + 8 + file.length(places.get("Code") + 4);
        Attributes ofCode = new Attributes(file, handlers + 2 + 8 * file.number(handlers));
        if (!ofCode.has("LineNumberTable")) {
            return 0;
        }
        int table = ofCode.places.get("LineNumberTable");
        int first = 0;
        for (int i = 0; i < file.number(table); i++) {
            int line = file.number(table + 4 + 4 * i);
            first = first == 0 ? line : Math.min(first, line);
        }
        return first;
    }
}
