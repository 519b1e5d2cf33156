module shapes {
    exports shapes;
    exports shapes.tools;
}
