package app;

import shapes.Frame;
import shapes.Square;

public class Drawing {
    static void run() {
        Object frame = new Frame(new Square());
    }
}
