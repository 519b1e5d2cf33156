package app;

import java.util.ArrayList;
import java.util.List;
import shapes.Canvas;
import shapes.Shape;

public class Main {
    static class Square extends Shape {
    }

    public static void main(String[] words) {
        List<Square> squares = new ArrayList<>();
        System.out.println(new Canvas().paint(squares));
    }
}
