/** Two objects that know each other, private calls, a virtual call, and a finalizer that keeps its object. */
public class Pair {
    static Object kept;

    private Pair other;
    private int value;

    Pair(int value) {
        this.value = value;
    }

    public static void main(String[] args) {
        Pair first = new Pair(1);
        Pair second = new Pair(2);
        first.link(second);
        first.partner().hashCode();
    }

    private void link(Pair that) {
        other = that;
        that.other = this;
    }

    private Pair partner() {
        return other;
    }

    @Override
    public int hashCode() {
        return value + 31;
    }

    @Override
    protected void finalize() {
        kept = this;
    }

    /** Nothing calls this method, so nothing in it has a line. */
    static Pair unused() {
        return new Pair(3);
    }
}
