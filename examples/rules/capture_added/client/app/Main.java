package app;

public class Main {
    public static void main(String[] words) {
        new Board().start();
    }
}
