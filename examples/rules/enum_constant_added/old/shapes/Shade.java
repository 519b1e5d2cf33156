package shapes;

public enum Shade {
    LIGHT, DARK
}
