package app;

public class Main {
    public static void main(String[] words) {
        Drawing.Brush.paint();
    }
}
