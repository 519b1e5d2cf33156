package app;

import shapes.Named;

public class Label implements Named {
}
