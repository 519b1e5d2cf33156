package shapes;

public interface Movable {
}
