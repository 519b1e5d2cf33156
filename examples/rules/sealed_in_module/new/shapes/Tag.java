package shapes;

public final class Tag implements Named {
    public Tag() {
    }
}
