package app;

public class Can implements Sprayer {
    public void paint() {
        System.out.println("painted");
    }
}
