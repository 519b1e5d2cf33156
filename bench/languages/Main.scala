package scalaapp

import shapes.{Canvas, Square}

object Main {
  def main(words: Array[String]): Unit = {
    val canvas = new Canvas(3)
    canvas.draw(new Square(2))
    println(canvas.width)
  }
}
