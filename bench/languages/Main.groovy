package groovyapp

import shapes.Canvas
import shapes.Square

@groovy.transform.CompileStatic
class Main {
    static void main(String[] words) {
        Canvas canvas = new Canvas(3)
        canvas.draw(new Square(2.0d))
        println canvas.@width
    }
}
