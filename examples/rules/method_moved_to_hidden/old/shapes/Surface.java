package shapes;

class Surface {
}
