package app;

import shapes.Painter;

public class Main implements Painter {
    public void paint() {
        System.out.println("painted");
    }

    public static void main(String[] words) {
        Painter painter = new Main();
        Runnable work = painter::paint;
        work.run();
    }
}
