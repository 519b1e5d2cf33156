package app;

import shapes.Named;

public final class Label implements Named {
}
