package app;

import shapes.Painter;

public interface Sprayer extends Painter {
}
