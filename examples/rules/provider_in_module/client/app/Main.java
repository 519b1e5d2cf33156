package app;

import java.util.ServiceLoader;
import shapes.Painter;

public class Main {
    public static void main(String[] words) {
        Painter painter = ServiceLoader.load(Painter.class).findFirst().orElseThrow();
        painter.paint();
    }
}
