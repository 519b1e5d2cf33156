package shapes;

public interface Brush {
    default void clean() {
        System.out.println("cleaned");
    }
}
