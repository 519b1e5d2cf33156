package shapes;

public class Polygon {
    public Polygon() {
    }
}
