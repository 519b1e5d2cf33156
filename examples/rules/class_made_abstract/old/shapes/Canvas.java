package shapes;

public class Canvas {
    public Canvas(int width) {
    }
}
