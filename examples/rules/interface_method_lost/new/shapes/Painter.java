package shapes;

public interface Painter {
}
