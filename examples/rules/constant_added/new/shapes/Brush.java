package shapes;

public interface Brush {
    int WIDTH = 1;

    void paint();
}
