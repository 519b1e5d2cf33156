package shapes;

public class Label implements Mark {
    public Label() {
    }
}
