package shapes;

class Square {
}
