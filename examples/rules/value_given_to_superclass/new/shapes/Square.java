package shapes;

public class Square {
    public Square() {
    }
}
