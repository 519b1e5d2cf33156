package fancy;

/** A class of another library. It is there when the new release is compiled, and not when it is used. */
public class Decoration {
    public Decoration() {
    }
}
