package app;

import shapes.Canvas;

public class Main {
    public static void main(String[] words) {
        System.out.println(Canvas.MOST);
    }
}
