package shapes;

public interface Cleaner {
    default void clean() {
        System.out.println("cleaned");
    }
}
