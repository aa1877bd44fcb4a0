import java.io.BufferedReader;
import java.io.IOException;
import java.io.InputStreamReader;
import java.io.PrintStream;
import java.nio.charset.StandardCharsets;
import java.util.ArrayList;
import java.util.List;
import java.util.Map;
import java.util.TreeMap;
import java.util.stream.Collectors;
import java.util.stream.LongStream;
import java.util.stream.Stream;
import org.osgi.framework.BundleException;
import org.osgi.framework.InvalidSyntaxException;

/**
 * Answers a call script with Equinox. A line of standard input is a changing call with the number that document 01 gives it before
 * it ("0 add 3"), or a query. A changing call with 0 is made; one with another number is tried on a copy, to count what Equinox
 * makes of it. Writes a line for each query, as the script language has it, and at the end the counts to standard error.
 */
final class Answer {
    /** What an output list holds before a query, and what one of versions holds, as the script language says. */
    private static final long FILL = 0xDEAD0000L;
    private static final long VERSION_FILL = 0xBE00;

    private World world = new World();
    /** By call and number: the calls that Equinox accepts, and those that it refuses. */
    private final Map<String, long[]> tried = new TreeMap<>();

    public static void main(String[] arguments) throws IOException {
        BufferedReader script = new BufferedReader(new InputStreamReader(System.in, StandardCharsets.US_ASCII));
        PrintStream answers = new PrintStream(System.out, false);
        Answer answer = new Answer();
        for (String line = script.readLine(); line != null; line = script.readLine()) {
            answer.run(line.split(" "), answers);
        }
        answers.flush();
        answer.tried.forEach((call, counts) -> System.err.printf("%s %d %d%n", call, counts[0], counts[1]));
    }

    private void run(String[] words, PrintStream answers) {
        if (words[0].equals("start")) {
            world = new World();
        } else if (Character.isDigit(words[0].charAt(0))) {
            change(words[0], Stream.of(words).skip(1).toArray(String[]::new));
        } else {
            answers.println(query(words));
        }
    }

    private void change(String number, String[] words) {
        boolean refused = number.equals("0") ? !accepted(words) : world.refuses(words);
        tried.computeIfAbsent(words[0] + " " + number, key -> new long[2])[refused ? 1 : 0]++;
    }

    private boolean accepted(String[] words) {
        try {
            world.change(words);
            return true;
        } catch (BundleException | InvalidSyntaxException | RuntimeException e) {
            System.err.println("refused by Equinox: " + String.join(" ", words) + ": " + e);
            return false;
        }
    }

    private String query(String[] words) {
        List<Long> given = World.list(words[3]);
        long first = Long.parseLong(words[1]);
        if (words[0].equals("resolve")) {
            return resolve(first, World.list(words[2]), given, World.list(words[4]), World.list(words[5]));
        }
        long second = Long.parseLong(words[2]);
        switch (words[0]) {
            case "bfind":
                return shown(world.bundleFind(first, given), second);
            case "sfind":
                return shown(world.serviceFind(first, given), second);
            case "bevent":
                return shown(world.bundleEvent(given, second), first);
            case "sevent":
                return shown(world.serviceEvent(given, second), first);
            default:
                throw new IllegalArgumentException(words[0]);
        }
    }

    /** The answer to an accepted resolve, with the places of each output list. */
    private String resolve(long asker, List<Long> places, List<Long> exporters, List<Long> packages, List<Long> versions) {
        List<Integer> kept = world.resolve(asker, exporters, packages, versions);
        return "0 " + kept.size() + " " + output(at(kept, exporters), places.get(0), FILL) + " "
                + output(at(kept, packages), places.get(1), FILL) + " " + output(at(kept, versions), places.get(2), VERSION_FILL);
    }

    private static List<Long> at(List<Integer> places, List<Long> numbers) {
        return places.stream().map(numbers::get).collect(Collectors.toList());
    }

    /** The answer to another accepted query with so many places for its output. */
    private static String shown(List<Long> kept, long places) {
        return "0 " + kept.size() + " " + output(kept, places, FILL);
    }

    /** An output list with so many places that starts with what is kept, and held numbers from one on before. */
    private static String output(List<Long> kept, long places, long fill) {
        List<Long> out = new ArrayList<>(kept);
        LongStream.range(kept.size(), places).forEach(i -> out.add(fill + i));
        return out.isEmpty() ? "-" : out.stream().map(String::valueOf).collect(Collectors.joining(","));
    }
}
