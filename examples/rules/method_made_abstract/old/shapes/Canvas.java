package shapes;

public abstract class Canvas {
    public Canvas() {
    }

    public void clean() {
        System.out.println("cleaned");
    }
}
