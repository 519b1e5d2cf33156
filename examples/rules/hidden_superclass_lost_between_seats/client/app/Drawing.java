package app;

import shapes.Maker;
import shapes.Painter;

public class Drawing extends Maker {
    static class Brush extends Painter {
        static void paint() {
            draw(unit());
        }
    }
}
