package app;

public interface Engine {
    default void start() {
        System.out.println("started");
    }
}
