package shapes;

/** A shape of straight sides. */
public abstract class Polygon extends Shape {
    public Polygon() {
    }

    public abstract int sides();
}
