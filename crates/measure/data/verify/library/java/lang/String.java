package java.lang;

public final class String {
}
