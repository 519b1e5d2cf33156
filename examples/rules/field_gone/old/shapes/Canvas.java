package shapes;

public class Canvas {
    public int width;

    public Canvas() {
    }
}
