package shapes;

public interface Painter {
    static int most() {
        return 3;
    }
}
