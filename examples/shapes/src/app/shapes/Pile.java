package shapes;

/** Shapes on top of one another. */
public class Pile implements Shape {
    private final Shape[] shapes;
    private int count;

    public Pile(int most) {
        shapes = new Shape[most];
    }

    public void add(Shape shape) {
        if (count == shapes.length) {
            throw new IllegalStateException("full");
        }
        shapes[count++] = shape;
    }

    public int area() {
        int sum = 0;
        for (int i = 0; i < count; i++) {
            sum += shapes[i].area();
        }
        return sum;
    }
}
