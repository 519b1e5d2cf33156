package shapes;

import java.util.List;

public class Order<T extends Comparable<T>> {
    public Order() {
    }

    public List<T> sorted(List<T> items) {
        return items;
    }
}
