package shapes;

public class Canvas {
    public Canvas() {
    }
}
