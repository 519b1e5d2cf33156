package shapes;

abstract class Figure {
}
