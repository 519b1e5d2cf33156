package shapes;

interface Worker {
    void paint();
}
