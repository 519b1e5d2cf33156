package shapes;

public class Canvas {
    public Canvas() {
    }

    public Canvas(int width) {
    }
}
