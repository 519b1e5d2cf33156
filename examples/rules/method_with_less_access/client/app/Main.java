package app;

import shapes.Canvas;
import shapes.Studio;

public class Main extends Canvas {
    void reset() {
        System.out.println("reset");
    }

    public static void main(String[] words) {
        new Studio().open(new Main());
    }
}
