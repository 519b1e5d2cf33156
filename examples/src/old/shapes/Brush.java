package shapes;

/** What paints. */
public interface Brush {
    void paint();
}
