import java.io.BufferedOutputStream;
import java.io.BufferedReader;
import java.io.FileOutputStream;
import java.io.IOException;
import java.io.InputStreamReader;
import java.io.PrintStream;
import java.io.UncheckedIOException;
import java.nio.file.DirectoryStream;
import java.nio.file.Files;
import java.nio.file.Path;
import java.nio.file.Paths;
import java.util.HashMap;
import java.util.Map;
import java.util.TreeMap;

/** Reads lines "FOLDER FILE OFFSET VALUE", and writes what this JVM says of the classes of the folder, linked one by one, with that byte changed. */
public class Verdicts {
    static final class Classes extends ClassLoader {
        final Map<String, byte[]> files = new TreeMap<>();

        @Override
        protected Class<?> loadClass(String name, boolean resolve) throws ClassNotFoundException {
            synchronized (getClassLoadingLock(name)) {
                Class<?> loaded = findLoadedClass(name);
                byte[] bytes = files.get(name);
                if (loaded == null && bytes != null) {
                    loaded = defineClass(null, bytes, 0, bytes.length);
                }
                return loaded != null ? loaded : super.loadClass(name, resolve);
            }
        }
    }

    static Map<String, byte[]> read(String folder) {
        Map<String, byte[]> files = new TreeMap<>();
        try (DirectoryStream<Path> paths = Files.newDirectoryStream(Paths.get(folder), "*.class")) {
            for (Path path : paths) {
                files.put(path.getFileName().toString(), Files.readAllBytes(path));
            }
        } catch (IOException e) {
            throw new UncheckedIOException(e);
        }
        return files;
    }

    static String verdict(Map<String, byte[]> files, String changed, int offset, byte value) {
        Classes classes = new Classes();
        files.forEach((name, bytes) -> {
            byte[] own = bytes.clone();
            if (name.equals(changed)) {
                own[offset] = value;
            }
            classes.files.put(name.substring(0, name.length() - ".class".length()), own);
        });
        try {
            for (String name : classes.files.keySet()) {
                // asking for its methods links a class, and so verifies it
                Class.forName(name, false, classes).getDeclaredMethods();
            }
            return "accepted";
        } catch (Throwable t) {
            return t.getClass().getSimpleName() + " " + String.valueOf(t.getMessage()).replaceAll("[\\r\\n].*", "");
        }
    }

    public static void main(String[] args) throws IOException {
        Map<String, Map<String, byte[]>> folders = new HashMap<>();
        BufferedReader in = new BufferedReader(new InputStreamReader(System.in));
        try (PrintStream out = new PrintStream(new BufferedOutputStream(new FileOutputStream(args[0])))) {
            for (String line; (line = in.readLine()) != null; ) {
                String[] words = line.split(" ");
                Map<String, byte[]> files = folders.computeIfAbsent(words[0], Verdicts::read);
                out.println(verdict(files, words[1], Integer.parseInt(words[2]), (byte) Integer.parseInt(words[3])));
            }
        }
    }
}
