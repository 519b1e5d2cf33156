package app;

import java.util.function.Consumer;
import shapes.Square;

public class Main {
    public static void main(String[] words) {
        Painter.paint();
    }
}

class Painter {
    static void paint() {
        Consumer<Square> painter = square -> System.out.println("painted");
        painter.accept(null);
    }
}
