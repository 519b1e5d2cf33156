package shapes;

public class Shapes {
    private Shapes() {
    }

    public static Square unit() {
        return new Square();
    }

    public static void draw(Figure figure) {
    }
}
