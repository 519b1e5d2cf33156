package shapes;

public class Canvas {
    public Canvas() {
    }

    void draw(int times) {
    }
}
