package java.lang;

public final class String implements java.io.Serializable {
    public int length() {
        return 0;
    }
}
