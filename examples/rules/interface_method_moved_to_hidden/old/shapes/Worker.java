package shapes;

interface Worker {
}
