package shapes;

public class Circle extends Figure {
    public Circle() {
    }
}
