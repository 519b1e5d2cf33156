package shapes;

public abstract class Canvas implements Cleaner {
    public Canvas() {
    }
}
