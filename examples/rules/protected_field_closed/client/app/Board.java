package app;

import shapes.Canvas;

public class Board extends Canvas {
    int half() {
        return width / 2;
    }
}
