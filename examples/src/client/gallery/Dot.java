package gallery;

import shapes.Circle;

/** A circle that can hardly be seen. */
public class Dot extends Circle {
    public Dot() {
        super(0.001);
    }
}
