package app;

import shapes.Canvas;

public class Main {
    public static void main(String[] words) {
        int width = new Canvas().width;
    }
}
