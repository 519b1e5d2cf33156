package shapes;

public abstract class Canvas {
    public Canvas() {
    }
}
