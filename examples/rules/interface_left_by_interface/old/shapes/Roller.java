package shapes;

public interface Roller extends Painter {
    void roll();
}
