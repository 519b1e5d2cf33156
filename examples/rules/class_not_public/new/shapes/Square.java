package shapes;

class Square {
    public Square() {
    }
}
