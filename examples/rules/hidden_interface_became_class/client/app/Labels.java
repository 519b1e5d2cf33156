package app;

import shapes.Label;
import shapes.Shapes;

public class Labels {
    static void run() {
        Shapes.add(new Label());
    }
}
