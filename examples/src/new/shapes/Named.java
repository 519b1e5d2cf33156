package shapes;

/** What has a name. It is no longer an interface. */
public abstract class Named {
    public abstract String name();
}
