package shapes;

/** What shapes are drawn on. */
public class Canvas {
    public static final int MOST = 100;

    public int width;

    public Canvas() {
        this(MOST);
    }

    public Canvas(int width) {
        this.width = width;
    }

    public void draw(Shape shape) {
    }

    public void clear() {
    }
}
