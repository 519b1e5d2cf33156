package shapes;

public class Tag extends Shape {
    public Tag() {
    }

    public String name() {
        return "tag";
    }
}
