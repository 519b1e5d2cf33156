package jcompat;

/** A member and the class file that declares it. */
final class Declaration {
    final ClassFile file;
    final Member member;

    Declaration(ClassFile file, Member member) {
        this.file = file;
        this.member = member;
    }

    boolean isAbstract() {
        return member.is(ClassFile.ABSTRACT);
    }

    Attributes attributes() {
        return file.attributes(member);
    }
}
