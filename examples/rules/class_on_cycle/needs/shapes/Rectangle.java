package shapes;

/** As it was when Polygon was compiled. */
public class Rectangle {
    public Rectangle() {
    }
}
