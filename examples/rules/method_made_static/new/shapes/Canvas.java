package shapes;

public class Canvas {
    public Canvas() {
    }

    public static void draw(int times) {
    }
}
