package gallery;

import shapes.Canvas;
import shapes.Shape;

/** Shows shapes on canvases. */
public class Gallery {
    public static void clear(Canvas canvas) {
        canvas.clear();
    }

    public static void widen(Canvas canvas) {
        canvas.width = 20;
    }

    public static void draw(Canvas canvas, Shape shape) {
        canvas.draw(shape);
    }
}
