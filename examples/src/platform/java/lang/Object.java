package java.lang;

/** A java.lang.Object of the example's own, so that a check of it needs no JDK. */
public class Object {
    public Object() {
    }

    public boolean equals(Object other) {
        return this == other;
    }

    public int hashCode() {
        return 0;
    }
}
