package shapes;

public class Canvas {
    public Canvas() {
    }

    protected Canvas(int width) {
    }
}
