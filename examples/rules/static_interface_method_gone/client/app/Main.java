package app;

import shapes.Painter;

public class Main {
    public static void main(String[] words) {
        int most = Painter.most();
    }
}
