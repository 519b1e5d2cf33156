package shapes.tools;

public class Surface {
    public static String title() {
        return "canvas";
    }
}
