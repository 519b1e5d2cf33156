package shapes;

public enum Shade {
    LIGHT, GREY, DARK
}
