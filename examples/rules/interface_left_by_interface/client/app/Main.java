package app;

import shapes.Painter;
import shapes.Roller;

public class Main implements Roller {
    public void roll() {
    }

    public void paint() {
        System.out.println("painted");
    }

    public static void main(String[] words) {
        Painter painter = new Main();
        painter.paint();
    }
}
