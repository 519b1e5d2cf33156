package app;

import shapes.Canvas;

public class Main {
    public static void main(String[] words) {
        new Canvas().draw(3);
    }
}
