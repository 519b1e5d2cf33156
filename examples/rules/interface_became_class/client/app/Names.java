package app;

import shapes.Named;
import shapes.Tag;

public class Names {
    static Named first() {
        return new Tag();
    }
}
