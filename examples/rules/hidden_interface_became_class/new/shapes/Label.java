package shapes;

public class Label {
    public Label() {
    }
}
