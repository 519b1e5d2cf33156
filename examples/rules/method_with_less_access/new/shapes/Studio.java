package shapes;

public class Studio {
    public Studio() {
    }

    public void open(Canvas canvas) {
        Resettable resettable = canvas;
        resettable.reset();
    }
}
