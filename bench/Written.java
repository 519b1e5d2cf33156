import java.io.ByteArrayOutputStream;
import java.io.DataOutputStream;
import java.io.IOException;
import java.lang.reflect.Modifier;
import java.util.ArrayList;
import java.util.LinkedHashMap;
import java.util.List;
import java.util.Map;

/** A class file (JVMS 4) of a client, which has one method. */
final class Written {
    private final Map<List<Object>, Integer> pool = new LinkedHashMap<>();
    private final int flags;
    private final String name;
    private final String above;
    private final List<String> interfaces;
    private final int methodFlags;
    private final String method;
    private final String descriptor;

    private Written(int flags, String name, String above, List<String> interfaces, int methodFlags, String method, String descriptor) {
        this.flags = flags;
        this.name = name;
        this.above = above;
        this.interfaces = interfaces;
        this.methodFlags = methodFlags;
        this.method = method;
        this.descriptor = descriptor;
    }

    /** An interface with the method as a default, which does nothing. */
    static Written ofDefault(String name, String method, String descriptor) {
        return new Written(0x601, name, "java/lang/Object", List.of(), 1, method, descriptor);
    }

    /** A class with the method, which does nothing and is package-private. */
    static Written ofOwn(String name, String above, String method, String descriptor) {
        return new Written(0x21, name, above, List.of(), 0, method, descriptor);
    }

    /** A class with a static method <code>call</code>, which calls the method on an object of the class. */
    static Written ofCall(String name, String above, List<String> interfaces, String method, String descriptor) {
        return new Written(0x21, name, above, interfaces, 9, method, descriptor);
    }

    byte[] bytes() {
        try {
            ByteArrayOutputStream rest = new ByteArrayOutputStream();
            write(new DataOutputStream(rest));
            ByteArrayOutputStream whole = new ByteArrayOutputStream();
            DataOutputStream file = new DataOutputStream(whole);
            file.writeInt(0xcafebabe);
            file.writeInt(52);
            file.writeShort(pool.size() + 1);
            for (List<Object> entry : pool.keySet()) {
                file.writeByte((Integer) entry.get(0));
                for (Object part : entry.subList(1, entry.size())) {
                    if (part instanceof String) {
                        file.writeUTF((String) part);
                    } else {
                        file.writeShort((Integer) part);
                    }
                }
            }
            rest.writeTo(file);
            return whole.toByteArray();
        } catch (IOException impossible) {
            throw new IllegalStateException(impossible);
        }
    }

    private void write(DataOutputStream file) throws IOException {
        file.writeShort(flags);
        file.writeShort(type(name));
        file.writeShort(type(above));
        file.writeShort(interfaces.size());
        for (String other : interfaces) {
            file.writeShort(type(other));
        }
        // no fields, one method
        file.writeShort(0);
        file.writeShort(1);
        boolean isCall = Modifier.isStatic(methodFlags);
        file.writeShort(methodFlags);
        file.writeShort(text(isCall ? "call" : method));
        file.writeShort(text(isCall ? "(L" + name + ";)V" : descriptor));
        byte[] code = isCall ? call() : results(new ByteArrayOutputStream(), "return");
        file.writeShort(1);
        file.writeShort(text("Code"));
        file.writeInt(code.length + 12);
        file.writeShort(520);
        file.writeShort(520);
        file.writeInt(code.length);
        file.write(code);
        file.writeInt(0);
        file.writeShort(0);
    }

    /** Calls the method on the argument. */
    private byte[] call() {
        ByteArrayOutputStream code = new ByteArrayOutputStream();
        // aload_0
        code.write(0x2a);
        for (String type : parameters()) {
            zero(code, type);
        }
        int place = entry(10, type(name), entry(12, text(method), text(descriptor)));
        code.write(0xb6);
        code.write(place >> 8);
        code.write(place);
        return results(code, "drop");
    }

    /** Returns: a zero of the method's own result, or nothing after what the call gave is dropped. */
    private byte[] results(ByteArrayOutputStream code, String how) {
        String result = descriptor.substring(descriptor.indexOf(')') + 1);
        boolean isWide = result.equals("J") || result.equals("D");
        if (how.equals("drop")) {
            if (!result.equals("V")) {
                code.write(isWide ? 0x58 : 0x57);
            }
            code.write(0xb1);
        } else if (result.equals("V")) {
            code.write(0xb1);
        } else {
            zero(code, result);
            int kind = "JFD".indexOf(result.charAt(0));
            code.write(result.matches("[\\[L].*") ? 0xb0 : kind < 0 ? 0xac : 0xad + kind);
        }
        return code.toByteArray();
    }

    /** aconst_null, or the zero of a number. */
    private static void zero(ByteArrayOutputStream code, String type) {
        int kind = "JFD".indexOf(type.charAt(0));
        code.write(type.matches("[\\[L].*") ? 1 : kind < 0 ? 3 : new int[] {9, 11, 14}[kind]);
    }

    private List<String> parameters() {
        List<String> types = new ArrayList<>();
        for (int at = 1; descriptor.charAt(at) != ')';) {
            int end = at;
            while (descriptor.charAt(end) == '[') {
                end++;
            }
            end = descriptor.charAt(end) == 'L' ? descriptor.indexOf(';', end) + 1 : end + 1;
            types.add(descriptor.substring(at, end));
            at = end;
        }
        return types;
    }

    private int text(String text) {
        return entry(1, text);
    }

    private int type(String name) {
        return entry(7, text(name));
    }

    private int entry(Object... parts) {
        List<Object> entry = List.of(parts);
        pool.putIfAbsent(entry, pool.size() + 1);
        return pool.get(entry);
    }
}
