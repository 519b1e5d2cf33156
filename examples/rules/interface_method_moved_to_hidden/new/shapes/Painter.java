package shapes;

public interface Painter extends Worker {
}
