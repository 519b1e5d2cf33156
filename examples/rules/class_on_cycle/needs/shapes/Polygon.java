package shapes;

/** As it was when Rectangle was compiled. */
public class Polygon {
    public Polygon() {
    }
}
