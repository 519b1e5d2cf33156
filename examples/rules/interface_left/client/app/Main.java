package app;

import shapes.Canvas;
import shapes.Painter;

public class Main {
    public static void main(String[] words) {
        Painter painter = new Canvas();
        painter.paint();
    }
}
