package shapes;

public abstract class Canvas {
    public Canvas() {
    }

    public abstract void clean();
}
