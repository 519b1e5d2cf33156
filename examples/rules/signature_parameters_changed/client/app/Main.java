package app;

import java.util.List;
import shapes.Order;

public class Main {
    public static void main(String[] words) {
        Order<Object> order = new Order<>();
        System.out.println(order.sorted(List.of("a", "b")));
    }
}
