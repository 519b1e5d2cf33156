package shapes;

public class Canvas {
    int width;

    public Canvas() {
    }
}
