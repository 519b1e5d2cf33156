package shapes;

public class Canvas {
    public static final int MOST = 100;

    public Canvas() {
    }
}
