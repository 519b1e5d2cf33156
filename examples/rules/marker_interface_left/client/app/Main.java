package app;

import shapes.Canvas;
import shapes.Movable;

public class Main {
    public static void main(String[] words) {
        Movable[] things = new Movable[1];
        things[0] = new Canvas();
    }
}
