package shapes;

public class Rectangle extends Shape {
    public Rectangle() {
    }
}
