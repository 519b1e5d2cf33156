package shapes;

public class Tag extends Shape implements Named {
    public Tag() {
    }

    public String name() {
        return "tag";
    }
}
