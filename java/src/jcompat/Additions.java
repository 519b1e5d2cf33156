package jcompat;

import java.util.ArrayList;
import java.util.HashSet;
import java.util.LinkedHashMap;
import java.util.List;
import java.util.Map;
import java.util.Set;

/**
 * What was added: each class and member that clients can name in the new release and couldn't in the old one, and what is deprecated now. Members that only
 * classes of the JDK or of other libraries give aren't listed. All of this is tested, and not proved.
 */
final class Additions {
    /** In order of classes; what only says the same of a class below another one is folded into that. */
    final List<Added> all = new ArrayList<>();
    private final Classes before;
    private final Classes now;
    /** To each class its members of which something is to be told. */
    private final Map<String, Map<String, Added.Kind>> found = new LinkedHashMap<>();

    Additions(Classes before, Classes now) {
        this.before = before;
        this.now = now;
        Set<String> names = now.names();
        names.removeIf(name -> !now.isNameable(name));
        names.stream().filter(before::isNameable).forEach(name -> found.put(name, opened(name)));
        for (String name : names) {
            if (!found.containsKey(name)) {
                all.add(new Added(Added.Kind.ADDED, name, null));
            } else {
                found.get(name).forEach((member, kind) -> add(name, member, kind));
                addDeprecated(name);
            }
        }
    }

    long count(Added.Kind kind) {
        return all.stream().filter(added -> added.kind == kind).count();
    }

    private Map<String, Added.Kind> opened(String name) {
        Map<String, Integer> old = members(before, name, true);
        Map<String, Added.Kind> kinds = new LinkedHashMap<>();
        members(now, name, false).forEach((member, access) -> {
            Integer was = old.get(member);
            if (was == null || was != ClassFile.PUBLIC && access == ClassFile.PUBLIC) {
                kinds.put(member, was == null ? Added.Kind.ADDED : Added.Kind.OPENED);
            }
        });
        return kinds;
    }

    /** To each field, method and constructor that clients can name by the class its access. */
    private static Map<String, Integer> members(Classes release, String name, boolean ofOthersToo) {
        Map<String, Integer> members = new LinkedHashMap<>();
        boolean isFinal = release.find(name).is(ClassFile.FINAL);
        for (ClassFile file : release.chain(name)) {
            if (ofOthersToo || release.has(file.name)) {
                List<Member> all = new ArrayList<>(file.fields());
                all.addAll(file.methods());
                all.stream().filter(member -> isOpen(member, isFinal) && isInherited(member, file, name))
                        .forEach(member -> members.merge(member.text(), member.flags & ClassFile.PUBLIC, Math::max));
            }
        }
        return members;
    }

    private static boolean isOpen(Member member, boolean isFinal) {
        return !member.is(ClassFile.SYNTHETIC) && (member.is(ClassFile.PUBLIC) || member.is(ClassFile.PROTECTED) && !isFinal);
    }

    /** A constructor, and a static method of an interface, is of its own class alone. */
    private static boolean isInherited(Member member, ClassFile file, String name) {
        boolean isOfOne = member.name.equals("<init>") || file.is(ClassFile.INTERFACE) && member.is(ClassFile.STATIC) && member.type.startsWith("(");
        return !isOfOne || file.name.equals(name);
    }

    private void add(String name, String member, Added.Kind kind) {
        if (now.above(name).stream().anyMatch(above -> isToldOf(above, member, kind))) {
            return;
        }
        Added added = new Added(kind, name, member);
        added.folded = (int) found.keySet().stream().filter(below -> found.get(below).get(member) == kind && now.above(below).contains(name)).count();
        all.add(added);
    }

    /** Of a class that was added all members were. */
    private boolean isToldOf(String above, String member, Added.Kind kind) {
        return found.containsKey(above) ? found.get(above).get(member) == kind
                : now.isNameable(above) && !member.startsWith("<init>") && members(now, above, false).containsKey(member);
    }

    private void addDeprecated(String name) {
        ClassFile old = before.find(name);
        ClassFile file = now.find(name);
        if (file.attributes().has("Deprecated") && !old.attributes().has("Deprecated")) {
            all.add(new Added(Added.Kind.DEPRECATED, name, null));
        }
        Set<String> same = new HashSet<>();
        declared(old).forEach(member -> {
            if (!old.attributes(member).has("Deprecated")) {
                same.add(member.text());
            }
        });
        declared(file).stream().filter(member -> isOpen(member, file.is(ClassFile.FINAL)) && same.contains(member.text()) && file.attributes(member).has("Deprecated"))
                .forEach(member -> all.add(new Added(Added.Kind.DEPRECATED, name, member.text())));
    }

    private static List<Member> declared(ClassFile file) {
        List<Member> all = new ArrayList<>(file.fields());
        all.addAll(file.methods());
        return all;
    }

    /** The lines, counted by package before them, the first of each kind in words. */
    List<String> lines(Request.Explain explain) {
        List<String> lines = new ArrayList<>();
        Set<String> told = new HashSet<>();
        String last = null;
        for (Added added : all) {
            String name = Names.packageOf(added.type);
            if (!name.equals(last)) {
                lines.add("added in " + name + ": " + counts(name));
                last = name;
            }
            lines.add(added.printed());
            boolean isFirst = told.add(added.kind + (added.member == null ? " class" : added.member.startsWith("<init>") ? " constructor" : added.member.contains("(") ? " method" : " field"));
            if (explain == Request.Explain.ALL || explain == Request.Explain.FIRST && isFirst) {
                lines.add("    " + added.words(now));
            }
        }
        return lines;
    }

    private String counts(String name) {
        long classes = all.stream().filter(added -> Names.packageOf(added.type).equals(name) && added.kind != Added.Kind.DEPRECATED && added.member == null).count();
        long members = all.stream().filter(added -> Names.packageOf(added.type).equals(name) && added.kind != Added.Kind.DEPRECATED && added.member != null).count();
        long deprecated = all.stream().filter(added -> Names.packageOf(added.type).equals(name) && added.kind == Added.Kind.DEPRECATED).count();
        return classes + " classes, " + members + " members, " + deprecated + " deprecated";
    }
}
