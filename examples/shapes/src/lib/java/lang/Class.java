package java.lang;

public final class Class<T> implements java.io.Serializable {
    public String getName() {
        return null;
    }
}
