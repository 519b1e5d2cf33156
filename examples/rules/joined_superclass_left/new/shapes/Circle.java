package shapes;

public class Circle {
    public Circle() {
    }
}
