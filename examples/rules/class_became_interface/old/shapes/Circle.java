package shapes;

public abstract class Circle {
    public Circle() {
    }
}
