package app;

import shapes.Canvas;

public class Board extends Canvas {
    @Override
    public void clear() {
        System.out.println("cleared");
    }
}
