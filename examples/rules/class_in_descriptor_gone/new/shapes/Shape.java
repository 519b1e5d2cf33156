package shapes;

public class Shape {
    public Shape() {
    }
}
