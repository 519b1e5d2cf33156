package shapes;

public abstract class Shape {
    public Shape() {
    }
}
