package shapes;

public interface Roller {
    default void clean() {
        System.out.println("rolled");
    }
}
