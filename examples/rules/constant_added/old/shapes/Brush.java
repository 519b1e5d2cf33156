package shapes;

public interface Brush {
    void paint();
}
