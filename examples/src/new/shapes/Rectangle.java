package shapes;

/** A rectangle. It is no longer a polygon. */
public class Rectangle extends Shape {
    private final double width;
    private final double height;

    public Rectangle(double width, double height) {
        this.width = width < 0 ? 0 : width;
        this.height = height < 0 ? 0 : height;
    }

    public double area() {
        return width * height;
    }

    public int sides() {
        return 4;
    }
}
