package app;

import shapes.Canvases;
import shapes.Painter;

public class Main {
    public static void main(String[] words) {
        Painter painter = Canvases.plain();
        painter.paint();
    }
}
