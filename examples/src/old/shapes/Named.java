package shapes;

/** What has a name. */
public interface Named {
    String name();
}
