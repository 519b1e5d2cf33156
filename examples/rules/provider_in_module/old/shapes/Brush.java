package shapes;

public class Brush implements Painter {
    public Brush() {
    }

    @Override
    public void paint() {
    }
}
