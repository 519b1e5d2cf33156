package shapes;

public class Canvas {
    public final int width;

    public Canvas() {
        width = 10;
    }
}
