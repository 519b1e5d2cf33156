package shapes;

class Figure {
}
