package app;

import shapes.Circle;
import shapes.Square;

final class Drawing {
    private Drawing() {
    }

    static boolean runs(boolean isSquare) {
        return (isSquare ? new Square() : new Circle()) instanceof Runnable;
    }
}
