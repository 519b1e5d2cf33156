package jcompat;

import java.io.IOException;
import java.nio.file.Files;
import java.nio.file.Path;
import java.nio.file.Paths;
import java.util.Arrays;
import java.util.HashSet;
import java.util.List;
import java.util.Map;
import java.util.Set;
import java.util.TreeMap;
import java.util.stream.Collectors;
import java.util.stream.Stream;

/**
 * Looks at all class files of a JDK for what chapter 4 of the Java Virtual Machine Specification of Java SE 17 doesn't have: tags of the constant pool (4.4), flags
 * of classes, fields and methods (4.1, 4.5, 4.6), and attributes (4.7). It needs a newer JDK, so it is no test of JUnit.
 */
public final class NewerForms {
    private static final Set<Integer> TAGS = new HashSet<>(Arrays.asList(1, 3, 4, 5, 6, 7, 8, 9, 10, 11, 12, 15, 16, 17, 18, 19, 20));
    /** And ACC_PRIVATE, which four classes have that jlink makes, those of a JDK 17 too; the flags of a class have no such one, so nobody asks for it. */
    private static final int CLASS_FLAGS = 0xf633;
    private static final int FIELD_FLAGS = 0x50df;
    private static final int METHOD_FLAGS = 0x1dff;
    private static final Set<String> ATTRIBUTES = new HashSet<>(Arrays.asList(("ConstantValue Code StackMapTable Exceptions InnerClasses EnclosingMethod Synthetic Signature "
            + "SourceFile SourceDebugExtension LineNumberTable LocalVariableTable LocalVariableTypeTable Deprecated RuntimeVisibleAnnotations "
            + "RuntimeInvisibleAnnotations RuntimeVisibleParameterAnnotations RuntimeInvisibleParameterAnnotations RuntimeVisibleTypeAnnotations "
            + "RuntimeInvisibleTypeAnnotations AnnotationDefault BootstrapMethods MethodParameters Module ModulePackages ModuleMainClass NestHost NestMembers Record "
            + "PermittedSubclasses").split(" ")));

    private final Map<String, Integer> others = new TreeMap<>();
    private final Map<Integer, Integer> versions = new TreeMap<>();
    private ClassFile file;

    public static void main(String[] words) throws Exception {
        NewerForms forms = new NewerForms();
        int count = 0;
        try (Jdk jdk = new Jdk(Paths.get(words[0])); Stream<Path> all = Files.walk(jdk.modules())) {
            List<Path> files = all.filter(path -> path.toString().endsWith(Names.CLASS) && !path.endsWith(Names.MODULE)).collect(Collectors.toList());
            for (Path each : files) {
                forms.look(Files.readAllBytes(each));
                count++;
            }
        }
        System.out.println(count + " class files, by version " + forms.versions + ": " + (forms.others.isEmpty() ? "nothing that Java SE 17 hasn't" : forms.others.toString()));
        System.exit(count > 0 && forms.others.isEmpty() ? 0 : 1);
    }

    private void found(String what) {
        others.merge(what, 1, Integer::sum);
    }

    private void look(byte[] bytes) throws IOException {
        versions.merge(Lowered.version(bytes), 1, Integer::sum);
        file = new ClassFile(bytes);
        for (int i = 1; i < file.entries.length; i++) {
            int tag = file.entries[i] == 0 ? 1 : bytes[file.entries[i]];
            if (!TAGS.contains(tag)) {
                found("tag " + tag);
            }
        }
        flags("class", file.flags, CLASS_FLAGS);
        int place = members("field", FIELD_FLAGS, file.members);
        place = members("method", METHOD_FLAGS, place);
        if (attributes(place) != bytes.length) {
            found("bytes at the end");
        }
    }

    private void flags(String of, int flags, int known) {
        if ((flags & ~known) != 0) {
            found(of + " flags " + Integer.toHexString(flags & ~known));
        }
    }

    private int members(String kind, int known, int from) {
        int place = from + 2;
        for (int i = 0; i < file.number(from); i++) {
            flags(kind, file.number(place), known);
            place = attributes(place + 6);
        }
        return place;
    }

    /** The place behind a list of attributes, those inside Code and Record too. */
    private int attributes(int from) {
        int place = from + 2;
        for (int i = 0; i < file.number(from); i++) {
            String name = file.text(file.number(place));
            if (!ATTRIBUTES.contains(name)) {
                found("attribute " + name);
            }
            if (name.equals("Code")) {
                int code = place + 14 + length(place + 10);
                attributes(code + 2 + 8 * file.number(code));
            } else if (name.equals("Record")) {
                int component = place + 8;
                for (int j = 0; j < file.number(place + 6); j++) {
                    component = attributes(component + 4);
                }
            }
            place += 6 + length(place + 2);
        }
        return place;
    }

    private int length(int place) {
        return file.number(place) << 16 | file.number(place + 2);
    }
}
