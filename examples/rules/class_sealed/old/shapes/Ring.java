package shapes;

public final class Ring extends Circle {
    public Ring() {
    }
}
