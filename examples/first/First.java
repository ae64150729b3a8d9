/** Static methods over ints: a cycle, a chain, and a method that nothing calls. */
public class First {
    public static void main(String[] args) {
        pick(1, 2, 3, 4);
        again(5);
    }

    static int pick(int a, int b, int c, int d) {
        return first(d, a);
    }

    static int first(int a, int b) {
        return a;
    }

    static int again(int n) {
        return again(n);
    }

    static int unused() {
        return pick(-1, 0, 1, 2);
    }
}
