package app;

import shapes.Canvas;

public class Board extends Canvas {
    public void close() {
        System.out.println("closed");
    }
}
