package shapes;

public class Painter {
    protected static void draw(Figure figure) {
    }
}
