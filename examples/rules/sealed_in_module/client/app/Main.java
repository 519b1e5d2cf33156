package app;

public class Main {
    public static void main(String[] words) {
        Object label = new Label();
    }
}
