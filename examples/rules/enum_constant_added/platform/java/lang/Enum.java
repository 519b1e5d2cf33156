package java.lang;

public abstract class Enum<E extends Enum<E>> {
    protected Enum(String name, int ordinal) {
    }
}
