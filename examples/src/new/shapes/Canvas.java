package shapes;

/** What shapes are drawn on. */
public class Canvas {
    public static final int MOST = 200;

    public final int width;

    public Canvas() {
        this(MOST);
    }

    Canvas(int width) {
        this.width = width;
    }

    public boolean draw(Shape shape) {
        start();
        return shape != null;
    }

    public final void clear() {
    }

    public final void close() {
    }

    private void start() {
    }
}
