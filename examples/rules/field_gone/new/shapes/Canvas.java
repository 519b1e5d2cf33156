package shapes;

public class Canvas {
    public long width;

    public Canvas() {
    }
}
