package shapes;

public class Canvas extends Surface {
    public static String title() {
        return "canvas";
    }
}
