package app;

import shapes.Canvas;

public class Main extends Canvas {
    public static void main(String[] words) {
        new Main().clean();
    }
}
