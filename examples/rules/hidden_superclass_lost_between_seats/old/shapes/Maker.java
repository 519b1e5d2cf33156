package shapes;

public class Maker {
    protected static Square unit() {
        return new Square();
    }
}
