package app;

import shapes.Polygon;
import shapes.Rectangle;

public class Corners {
    static Polygon first() {
        return new Rectangle();
    }
}
