package shapes;

/** A rectangle. */
public class Rectangle extends Polygon {
    private final double width;
    private final double height;

    public Rectangle(double width, double height) {
        this.width = Measure.checked(width);
        this.height = Measure.checked(height);
    }

    public double area() {
        return width * height;
    }

    public int sides() {
        return 4;
    }
}
