package shapes;

/** What paints shapes. It is no longer a brush. */
public interface Painter {
}
