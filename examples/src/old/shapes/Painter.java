package shapes;

/** What paints shapes. */
public interface Painter extends Brush {
}
