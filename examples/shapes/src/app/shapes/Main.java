package shapes;

public class Main {
    static int total;

    public static void main(String[] words) {
        Pile pile = new Pile(words.length);
        try {
            for (String word : words) {
                pile.add(new Square(word.length()));
            }
            pile.add(pile);
        } catch (IllegalStateException full) {
            total = full.getMessage().length();
        }
        total += pile.area();
    }
}
