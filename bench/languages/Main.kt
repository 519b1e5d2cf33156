package kotlinapp

import shapes.Canvas
import shapes.Square

enum class Size { SMALL, LARGE }

fun width(size: Size) = when (size) {
    Size.SMALL -> 1
    Size.LARGE -> 3
}

fun main() {
    val canvas = Canvas(width(Size.LARGE))
    canvas.draw(Square(2.0))
    println(canvas.width)
}
