package app;

public class Main {
    public static void main(String[] words) {
        int half = new Board().half();
    }
}
