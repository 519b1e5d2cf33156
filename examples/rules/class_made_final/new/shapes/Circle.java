package shapes;

public final class Circle {
    public Circle() {
    }
}
