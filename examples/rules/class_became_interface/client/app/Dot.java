package app;

import shapes.Circle;

/** A circle that can hardly be seen. */
public class Dot extends Circle {
}
