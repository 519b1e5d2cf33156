package shapes;

public class Ring {
    public Ring() {
    }
}
