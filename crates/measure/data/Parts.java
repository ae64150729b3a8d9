import java.util.List;

/** A class with most of what a class file may have. */
abstract class Parts<T extends Comparable<T>> implements Runnable, Comparable<Parts<T>> {
    static final long LONG = 0x123456789abcdefL;
    static final double DOUBLE = 1.5;
    static final float FLOAT = 0.25f;
    static final String TEXT = "\0a\u00e9\u20ac\ud83d\ude00";
    private volatile int count;

    @Deprecated
    native int hidden(long a, double b);

    protected abstract T first(List<? extends T> items) throws Exception;

    @Override
    public void run() {
        long sum = LONG;
        for (int i = 0; i < count; i++) {
            try {
                sum += i % 3 == 0 ? (long) DOUBLE : sum / i;
            } catch (ArithmeticException | NullPointerException e) {
                count = (int) sum;
            } finally {
                count++;
            }
        }
        switch (count) {
            case 1: case 2: case 3:
                synchronized (this) { notifyAll(); }
                break;
            case 1000:
                new Inner().go(new int[2][3], TEXT);
                break;
            default:
        }
    }

    class Inner {
        void go(int[][] table, Object... rest) {
            table[0][1] = rest.length + (int) FLOAT + count;
        }
    }
}
