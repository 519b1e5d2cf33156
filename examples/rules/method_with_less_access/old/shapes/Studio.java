package shapes;

public class Studio {
    public Studio() {
    }

    public void open(Canvas canvas) {
    }
}
