package shapes;

public final class Polygon {
    public Polygon() {
    }
}
