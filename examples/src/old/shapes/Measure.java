package shapes;

/** Lengths. No other package can name this class, so a release without it breaks nobody. */
class Measure {
    private Measure() {
    }

    static double checked(double length) {
        return length < 0 ? 0 : length;
    }
}
