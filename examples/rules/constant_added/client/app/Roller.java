package app;

import shapes.Brush;

public class Roller extends Tool implements Brush {
    public void paint() {
        System.out.println(WIDTH);
    }
}
