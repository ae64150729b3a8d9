/** Methods whose frames meet: loops, handlers, and a value of one of two classes. */
class Sums {
    private long sum;

    class More extends Sums {
    }

    static int most(int[] numbers) {
        int most = 0;
        for (int i = 0; i < numbers.length; i++) {
            most = numbers[i] > most ? numbers[i] : most;
        }
        return most;
    }

    Sums chosen(boolean more) {
        Sums sums = more ? new More() : this;
        sums.sum += 2L;
        return sums;
    }

    boolean caught(Object[][] table) {
        try {
            return table[0][1].equals(new Object[] {this, "sum"});
        } catch (Throwable thrown) {
            return false;
        } finally {
            sum++;
        }
    }
}
