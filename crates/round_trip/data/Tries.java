// javac --release 11 -g Tries.java
import java.io.IOException;
import java.io.StringReader;

public class Tries {
    static synchronized int read(String text) throws IOException {
        int count = 0;
        try (StringReader reader = new StringReader(text)) {
            while (reader.read() >= 0) {
                count++;
            }
        } catch (IllegalStateException | ArithmeticException e) {
            throw new IOException(e);
        } finally {
            synchronized (Tries.class) {
                count += 2;
            }
        }
        assert count > 0 : "count";
        return count;
    }

    native int outside();
}
