package shapes;

/** A circle. It may no longer be extended. */
public final class Circle extends Shape {
    private final double radius;

    public Circle(double radius) {
        this.radius = radius < 0 ? 0 : radius;
    }

    public double area() {
        return 3.141592653589793 * radius * radius;
    }
}
