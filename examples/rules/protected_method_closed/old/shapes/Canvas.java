package shapes;

public class Canvas {
    public Canvas() {
    }

    protected void start() {
    }
}
