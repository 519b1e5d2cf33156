package shapes.tools;

public class Surface {
}
