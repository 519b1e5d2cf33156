package shapes;

public class Canvas {
    public static int width;

    public Canvas() {
    }
}
