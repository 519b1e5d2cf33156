package app;

public class Tool {
    protected int WIDTH = 5;
}
