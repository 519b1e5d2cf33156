package app;

import shapes.Canvas;

public class Main {
    public static void main(String[] words) {
        for (String name : new Canvas().names()) {
            System.out.println(name);
        }
    }
}
