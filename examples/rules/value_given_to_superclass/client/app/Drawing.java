package app;

import shapes.Frame;
import shapes.Square;

public class Drawing extends Frame {
    public Drawing() {
        super(new Square());
    }

    static void run() {
        Object drawing = new Drawing();
    }
}
