package shapes;

public class Rectangle {
    public Rectangle() {
    }
}
