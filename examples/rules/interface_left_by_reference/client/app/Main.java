package app;

import java.util.function.Consumer;
import shapes.Canvas;
import shapes.Painter;

public class Main {
    public static void main(String[] words) {
        Consumer<Canvas> work = Painter::paint;
        work.accept(new Canvas());
    }
}
