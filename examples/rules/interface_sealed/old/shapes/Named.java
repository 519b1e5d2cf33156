package shapes;

public interface Named {
}
