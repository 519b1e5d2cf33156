package shapes;

public class Rectangle extends Polygon {
    public Rectangle() {
    }
}
