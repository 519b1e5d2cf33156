package jcompat;

import java.util.ArrayList;
import java.util.LinkedHashMap;
import java.util.List;
import java.util.Map;

/** Reads and writes JSON (RFC 8259): maps in order, lists, texts, whole numbers, booleans and null. */
final class Json {
    private static final int MOST_DEEP = 64;

    private final String text;
    private int at;

    private Json(String text) {
        this.text = text;
    }

    /** The value that the text is; an IllegalArgumentException where it is none, or has more than one. */
    static Object read(String text) {
        Json json = new Json(text);
        Object value = json.value(0);
        json.skip();
        if (json.at < text.length()) {
            throw json.wrong();
        }
        return value;
    }

    private IllegalArgumentException wrong() {
        return new IllegalArgumentException("no JSON at " + at);
    }

    private void skip() {
        while (at < text.length() && " \t\r\n".indexOf(text.charAt(at)) >= 0) {
            at++;
        }
    }

    private boolean takes(String word) {
        skip();
        boolean here = text.startsWith(word, at);
        at += here ? word.length() : 0;
        return here;
    }

    private void take(String word) {
        if (!takes(word)) {
            throw wrong();
        }
    }

    private Object value(int deep) {
        if (deep > MOST_DEEP) {
            throw wrong();
        }
        if (takes("{")) {
            return object(deep);
        }
        if (takes("[")) {
            return list(deep);
        }
        if (takes("\"")) {
            return string();
        }
        if (takes("null")) {
            return null;
        }
        if (takes("true")) {
            return true;
        }
        return takes("false") ? (Object) false : number();
    }

    private Map<String, Object> object(int deep) {
        Map<String, Object> object = new LinkedHashMap<>();
        if (takes("}")) {
            return object;
        }
        do {
            take("\"");
            String key = string();
            take(":");
            object.put(key, value(deep + 1));
        } while (takes(","));
        take("}");
        return object;
    }

    private List<Object> list(int deep) {
        List<Object> list = new ArrayList<>();
        if (takes("]")) {
            return list;
        }
        do {
            list.add(value(deep + 1));
        } while (takes(","));
        take("]");
        return list;
    }

    private Long number() {
        int from = at;
        while (at < text.length() && "-0123456789".indexOf(text.charAt(at)) >= 0) {
            at++;
        }
        try {
            return Long.valueOf(text.substring(from, at));
        } catch (NumberFormatException none) {
            throw wrong();
        }
    }

    private String string() {
        StringBuilder string = new StringBuilder();
        while (at < text.length() && text.charAt(at) != '"') {
            char each = text.charAt(at++);
            string.append(each == '\\' ? escaped() : each);
        }
        if (at >= text.length()) {
            throw wrong();
        }
        at++;
        return string.toString();
    }

    private char escaped() {
        if (at >= text.length()) {
            throw wrong();
        }
        char kind = text.charAt(at++);
        if (kind == 'u' && at + 4 <= text.length()) {
            at += 4;
            try {
                return (char) Integer.parseInt(text.substring(at - 4, at), 16);
            } catch (NumberFormatException none) {
                throw wrong();
            }
        }
        int place = "\"\\/bfnrt".indexOf(kind);
        if (place < 0) {
            throw wrong();
        }
        return "\"\\/\b\f\n\r\t".charAt(place);
    }

    /** The object of keys, each with its value behind it. */
    static Map<String, Object> object(Object... pairs) {
        Map<String, Object> map = new LinkedHashMap<>();
        for (int i = 0; i < pairs.length; i += 2) {
            map.put((String) pairs[i], pairs[i + 1]);
        }
        return map;
    }

    /** A value in one line. */
    static String write(Object value) {
        StringBuilder to = new StringBuilder();
        write(value, to);
        return to.toString();
    }

    private static void write(Object value, StringBuilder to) {
        if (value instanceof Map) {
            String before = "{";
            for (Map.Entry<?, ?> each : ((Map<?, ?>) value).entrySet()) {
                to.append(before);
                writeText(each.getKey().toString(), to);
                write(each.getValue(), to.append(':'));
                before = ",";
            }
            to.append(before.equals("{") ? "{}" : "}");
        } else if (value instanceof Iterable) {
            String before = "[";
            for (Object each : (Iterable<?>) value) {
                write(each, to.append(before));
                before = ",";
            }
            to.append(before.equals("[") ? "[]" : "]");
        } else if (value == null || value instanceof Number || value instanceof Boolean) {
            to.append(value);
        } else {
            writeText(value.toString(), to);
        }
    }

    private static void writeText(String text, StringBuilder to) {
        to.append('"');
        for (char each : text.toCharArray()) {
            if (each == '"' || each == '\\') {
                to.append('\\').append(each);
            } else if (each < 0x20 || each == 0x7f) {
                to.append(String.format("\\u%04x", (int) each));
            } else {
                to.append(each);
            }
        }
        to.append('"');
    }
}
