package gallery;

import shapes.Shape;
import shapes.Square;

/** Makes squares. */
public class Squares {
    public static Shape square() {
        return new Square(2);
    }
}
