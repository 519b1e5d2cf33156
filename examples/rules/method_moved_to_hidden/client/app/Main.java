package app;

import java.util.function.Supplier;
import shapes.Canvas;

public class Main {
    public static void main(String[] words) {
        Supplier<String> title = Canvas::title;
        System.out.println(title.get());
    }
}
