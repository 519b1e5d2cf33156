package shapes;

/** A circle. */
public class Circle extends Shape {
    private final double radius;

    public Circle(double radius) {
        this.radius = Measure.checked(radius);
    }

    public double area() {
        return 3.141592653589793 * radius * radius;
    }
}
