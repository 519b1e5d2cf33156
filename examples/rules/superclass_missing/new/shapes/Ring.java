package shapes;

import fancy.Decoration;

public class Ring extends Decoration {
    public Ring() {
    }
}
