package app;

import shapes.Ring;

public class Main {
    public static void main(String[] words) {
        Object ring = new Ring();
    }
}
