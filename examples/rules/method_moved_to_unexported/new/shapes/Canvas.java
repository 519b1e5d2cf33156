package shapes;

import shapes.tools.Surface;

public class Canvas extends Surface {
}
