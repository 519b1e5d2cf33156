package shapes;

import shapes.tools.Surface;

public class Canvas extends Surface {
    public static String title() {
        return "canvas";
    }
}
