package shapes;

public class Square extends Figure {
    public Square() {
    }
}
