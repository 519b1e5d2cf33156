package app;

import shapes.Canvas;

public class Main extends Canvas {
    private final Canvas lower;

    Main(boolean two) {
        lower = two ? new Canvas() : null;
    }

    public static void main(String[] words) {
        System.out.println(new Main(true).lower != null);
    }
}
