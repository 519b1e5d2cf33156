package shapes;

class Plain implements Painter {
    public void paint() {
        System.out.println("painted");
    }
}
