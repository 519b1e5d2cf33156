package app;

import shapes.Shapes;

public class Drawing {
    static void run() {
        Shapes.draw(Shapes.unit());
    }
}
