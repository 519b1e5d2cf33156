package shapes;

public interface Painter {
    void paint();
}
