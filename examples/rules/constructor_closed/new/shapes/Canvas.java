package shapes;

public class Canvas {
    public Canvas() {
    }

    Canvas(int width) {
    }
}
