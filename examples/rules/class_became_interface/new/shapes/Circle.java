package shapes;

public interface Circle {
}
