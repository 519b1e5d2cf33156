package shapes;

public class Canvas {
    public static final int MOST = 200;

    public Canvas() {
    }
}
