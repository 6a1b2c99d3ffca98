import java.io.IOException;
import java.nio.file.Files;
import java.nio.file.Path;
import java.util.ArrayList;
import java.util.HashMap;
import java.util.List;
import java.util.Map;
import java.util.StringTokenizer;

/** Counts the words of a text and prints the most frequent ones: a small program to trace. */
public class Words {
    private static class Word {
        final String text;
        final List<Integer> lines = new ArrayList<>();

        Word(String text) { this.text = text; }
    }

    public static void main(String[] arguments) throws IOException {
        Map<String, Word> words = new HashMap<>();
        int number = 0;
        for (String line : Files.readAllLines(Path.of(arguments[0]))) {
            number++;
            for (StringTokenizer parts = new StringTokenizer(line, " .,:;()|#`"); parts.hasMoreTokens(); )
                words.computeIfAbsent(parts.nextToken(), Word::new).lines.add(number);
        }
        List<Word> sorted = new ArrayList<>(words.values());
        sorted.sort((one, other) -> other.lines.size() - one.lines.size());
        for (Word word : sorted.subList(0, Math.min(5, sorted.size()))) System.out.println(word.lines.size() + " " + word.text);
    }
}
