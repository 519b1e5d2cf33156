package shapes;

public class Canvas {
    public Canvas() {
    }

    public final void close() {
    }
}
