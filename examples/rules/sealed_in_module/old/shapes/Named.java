package shapes;

public sealed interface Named permits Tag, app.Label {
}
