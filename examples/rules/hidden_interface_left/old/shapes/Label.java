package shapes;

public class Label implements Mark {
    public String text() {
        return "label";
    }
}
