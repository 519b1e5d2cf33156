package shapes.tools;

public class Ruler {
    public Ruler() {
    }
}
