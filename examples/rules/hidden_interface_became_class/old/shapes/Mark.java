package shapes;

interface Mark {
}
