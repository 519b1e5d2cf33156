package shapes;

public interface Painter extends Brush {
}
