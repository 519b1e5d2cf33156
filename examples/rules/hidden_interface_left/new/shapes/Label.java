package shapes;

public class Label {
    public String text() {
        return "label";
    }
}
