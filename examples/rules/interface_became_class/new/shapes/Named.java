package shapes;

public abstract class Named {
    public Named() {
    }

    public abstract String name();
}
