package shapes;

public interface Resettable {
    void reset();
}
