package shapes;

public class Canvas implements Movable {
    public Canvas() {
    }
}
