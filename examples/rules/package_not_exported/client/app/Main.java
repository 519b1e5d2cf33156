package app;

import shapes.tools.Ruler;

public class Main {
    public static void main(String[] words) {
        Object ruler = new Ruler();
    }
}
