package app;

import shapes.Rectangle;

public class Main {
    public static void main(String[] words) {
        Object rectangle = new Rectangle();
    }
}
