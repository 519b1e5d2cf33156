package shapes;

public class Canvas {
    public Canvas() {
    }

    public boolean draw(int times) {
        return times > 0;
    }
}
