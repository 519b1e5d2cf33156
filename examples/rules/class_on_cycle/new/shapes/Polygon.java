package shapes;

public class Polygon extends Rectangle {
    public Polygon() {
    }
}
