package shapes;

public class Canvas extends Surface {
}
