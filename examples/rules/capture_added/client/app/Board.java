package app;

import shapes.Canvas;

public class Board extends Canvas implements Engine {
}
