package app;

import java.io.IOException;
import java.io.InputStream;
import shapes.Canvas;

public class Main {
    public static void main(String[] words) throws IOException {
        InputStream colours = Canvas.class.getResource("colours.txt").openStream();
        colours.close();
    }
}
