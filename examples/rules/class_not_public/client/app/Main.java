package app;

import shapes.Square;

public class Main {
    public static void main(String[] words) {
        Object square = new Square();
    }
}
