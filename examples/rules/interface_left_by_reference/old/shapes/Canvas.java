package shapes;

public class Canvas implements Painter {
    public Canvas() {
    }

    public void paint() {
        System.out.println("painted");
    }
}
