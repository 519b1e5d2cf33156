package shapes;

class Surface {
    public static String title() {
        return "canvas";
    }
}
