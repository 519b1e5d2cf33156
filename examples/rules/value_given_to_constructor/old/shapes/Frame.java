package shapes;

public class Frame {
    public Frame(Figure figure) {
    }
}
