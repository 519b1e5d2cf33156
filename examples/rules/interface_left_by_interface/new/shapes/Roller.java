package shapes;

public interface Roller {
    void roll();

    void paint();
}
