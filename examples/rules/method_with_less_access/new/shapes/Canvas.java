package shapes;

public class Canvas implements Resettable {
    public Canvas() {
    }

    public void reset() {
    }
}
