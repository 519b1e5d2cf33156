package shapes;

public interface Roller {
}
