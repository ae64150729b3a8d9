package shapes;

/** Something with an area. */
public interface Shape {
    int area();
}
