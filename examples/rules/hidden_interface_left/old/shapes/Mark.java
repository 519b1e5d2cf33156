package shapes;

interface Mark {
    String text();
}
