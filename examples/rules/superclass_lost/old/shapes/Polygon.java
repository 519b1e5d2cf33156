package shapes;

public abstract class Polygon extends Shape {
    public Polygon() {
    }
}
