package app;

import shapes.Painter;
import shapes.Studio;

public class Main implements Painter {
    public void paint() {
        System.out.println("painted");
    }

    public static void main(String[] words) {
        new Studio().open(new Main());
    }
}
