package shapes;

public class Canvas {
    public Canvas() {
    }

    public void draw(int times) {
    }
}
