package shapes;

public sealed class Circle permits Ring {
    public Circle() {
    }
}
