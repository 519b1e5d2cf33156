package app;

import shapes.Canvas;

public class Board extends Canvas {
    public Board() {
        super(3);
    }
}
