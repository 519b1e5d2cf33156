package app;

public class Main {
    static void spray(Sprayer sprayer) {
        sprayer.paint();
    }

    public static void main(String[] words) {
        spray(new Can());
    }
}
