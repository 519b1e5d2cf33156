package app;

import shapes.Canvas;

public class Main {
    public static void main(String[] words) {
        Object canvas = new Canvas(3);
    }
}
