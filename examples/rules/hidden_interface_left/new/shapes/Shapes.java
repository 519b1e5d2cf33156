package shapes;

public final class Shapes {
    private Shapes() {
    }

    public static void put(Mark mark) {
        System.out.println(mark.text());
    }
}
