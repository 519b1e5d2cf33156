package shapes;

public class Canvas {
    public Canvas() {
    }

    private void start() {
    }
}
