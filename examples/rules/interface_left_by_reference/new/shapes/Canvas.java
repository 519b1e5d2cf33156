package shapes;

public class Canvas {
    public Canvas() {
    }

    public void paint() {
        System.out.println("painted");
    }
}
