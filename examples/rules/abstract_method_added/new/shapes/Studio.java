package shapes;

public class Studio {
    public Studio() {
    }

    public void open(Painter painter) {
        painter.paint();
        painter.clean();
    }
}
