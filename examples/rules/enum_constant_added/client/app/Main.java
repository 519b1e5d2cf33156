package app;

import shapes.Shade;

public class Main {
    static int weight(Shade shade) {
        return switch (shade) {
            case LIGHT -> 1;
            case DARK -> 2;
        };
    }

    public static void main(String[] words) {
        for (Shade shade : Shade.values()) {
            System.out.println(weight(shade));
        }
    }
}
