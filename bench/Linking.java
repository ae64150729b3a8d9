import java.io.IOException;
import java.nio.file.Files;
import java.nio.file.Path;
import java.util.List;
import java.util.Map;
import java.util.TreeMap;
import java.util.stream.Collectors;
import java.util.stream.Stream;

/**
 * Links the classes of a folder so many times, each time in a loader of its own. A JVM that verifies does so when
 * it links a class (JVMS 5.4.1). Their bytes are read once, before that.
 *
 * Linking ROUNDS FOLDER: prints how many classes there are, and the nanoseconds of all rounds but the first and
 * of the first.
 */
final class Linking extends ClassLoader {
    private final Map<String, byte[]> files;

    private Linking(Map<String, byte[]> files) {
        this.files = files;
    }

    @Override
    protected Class<?> findClass(String name) throws ClassNotFoundException {
        byte[] bytes = files.get(name);
        if (bytes == null) {
            throw new ClassNotFoundException(name);
        }
        return defineClass(name, bytes, 0, bytes.length);
    }

    private static Map<String, byte[]> filesBelow(Path folder) throws IOException {
        Map<String, byte[]> files = new TreeMap<>();
        List<Path> paths;
        try (Stream<Path> walk = Files.walk(folder)) {
            paths = walk.filter(path -> path.toString().endsWith(".class")).collect(Collectors.toList());
        }
        for (Path path : paths) {
            String name = folder.relativize(path).toString();
            files.put(name.substring(0, name.length() - 6).replace('/', '.'), Files.readAllBytes(path));
        }
        return files;
    }

    /** Asking for constructors links a class, and doesn't initialise it. */
    private static long link(Map<String, byte[]> files) throws ClassNotFoundException {
        long begin = System.nanoTime();
        Linking loader = new Linking(files);
        for (String name : files.keySet()) {
            Class.forName(name, false, loader).getDeclaredConstructors();
        }
        return System.nanoTime() - begin;
    }

    public static void main(String[] words) throws Exception {
        int rounds = Integer.parseInt(words[0]);
        Map<String, byte[]> files = filesBelow(Path.of(words[1]));
        long first = link(files);
        long others = 0;
        for (int round = 1; round < rounds; round++) {
            others += link(files);
        }
        System.out.println(files.size() + " " + others + " " + first);
    }
}
