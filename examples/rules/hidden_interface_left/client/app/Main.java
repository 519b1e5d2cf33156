package app;

import shapes.Label;
import shapes.Shapes;

public class Main {
    public static void main(String[] words) {
        Shapes.put(new Label());
    }
}
