package shapes;

/** What has an area. */
public abstract class Shape {
    public Shape() {
    }

    public abstract double area();
}
