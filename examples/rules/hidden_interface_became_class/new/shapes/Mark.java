package shapes;

abstract class Mark {
}
