package shapes;

public class Canvas {
    protected int width;

    public Canvas() {
    }
}
