package shapes;

public final class Canvases {
    private Canvases() {
    }

    public static Plain plain() {
        return new Plain();
    }
}
