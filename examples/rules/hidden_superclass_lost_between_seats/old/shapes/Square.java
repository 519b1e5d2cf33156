package shapes;

class Square extends Figure {
}
