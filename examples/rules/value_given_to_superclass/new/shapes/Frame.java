package shapes;

public class Frame {
    protected Frame(Figure figure) {
    }
}
