package shapes;

/** What paints, in a width of its own. */
public interface Brush {
    int WIDTH = 1;

    void paint();
}
