import java.io.PrintWriter;
import java.io.StringWriter;
import java.net.URL;
import java.net.URLClassLoader;
import java.nio.file.Files;
import java.nio.file.Path;
import java.util.List;
import java.util.stream.Collectors;
import java.util.stream.Stream;
import org.objectweb.asm.ClassReader;
import org.objectweb.asm.util.CheckClassAdapter;

/**
 * Verifies the classes of a folder once, by ASM's own analysis.
 *
 * Checking FOLDER: prints how many classes there are, and how many have a complaint.
 */
final class Checking {
    private Checking() {
    }

    public static void main(String[] words) throws Exception {
        Path folder = Path.of(words[0]);
        List<Path> paths;
        try (Stream<Path> walk = Files.walk(folder)) {
            paths = walk.filter(path -> path.toString().endsWith(".class")).collect(Collectors.toList());
        }
        int complaints = 0;
        try (URLClassLoader loader = new URLClassLoader(new URL[] {folder.toUri().toURL()})) {
            for (Path path : paths) {
                StringWriter said = new StringWriter();
                CheckClassAdapter.verify(new ClassReader(Files.readAllBytes(path)), loader, false, new PrintWriter(said));
                complaints += said.getBuffer().length() > 0 ? 1 : 0;
            }
        }
        System.out.println(paths.size() + " " + complaints);
    }
}
