package shapes;

class Plain {
    public void paint() {
        System.out.println("painted");
    }
}
