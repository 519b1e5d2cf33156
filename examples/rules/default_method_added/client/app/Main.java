package app;

import shapes.Brush;
import shapes.Roller;

public class Main implements Brush, Roller {
    public static void main(String[] words) {
        new Main().clean();
    }
}
