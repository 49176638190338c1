package testkit;

import static java.nio.charset.StandardCharsets.UTF_8;

import java.io.File;
import java.io.IOException;
import java.math.BigInteger;
import java.nio.charset.Charset;
import java.nio.file.Files;
import java.nio.file.Path;
import java.util.Arrays;
import java.util.Collections;
import java.util.HashSet;
import java.util.List;
import java.util.Set;
import java.util.concurrent.TimeUnit;
import java.util.regex.Matcher;
import java.util.regex.Pattern;
import java.util.stream.Collectors;
import java.util.stream.Stream;

import org.apiguardian.api.API;
import org.opentest4j.AssertionFailedError;
import org.opentest4j.TestAbortedException;

/**
 * Assertions about the record of a run, which the program {@code testkit} answers. {@link ResultsAssert} begins them about results of
 * EngineTestKit, and {@link RecordKit} about a run of an engine.
 *
 * <pre>{@code
 * RecordAssert.assertThat(Paths.get("target/run-1.record"))
 *         .keepsLifecycle()
 *         .exclusive(all(isTest(), hasId("db")))
 *         .tests().hasStatistics("failed=1", "skipped=0")
 *         .matchesInOrder(all(hasName("one"), hasStarted()), hasFailed("boom"));
 * }</pre>
 *
 * <p>Where the program says no, and where the record is cut off, an {@link AssertionFailedError} has its answer with its explanation.
 * Words or a record that the program refuses are an {@link IllegalArgumentException}; so is an argument that is {@code null}. A program
 * that breaks, that takes too long, or that {@link #PROGRAM_PROPERTY} names and that can't be run is an {@link IllegalStateException}.
 *
 * <p>The program is the one that {@link #PROGRAM_PROPERTY} names, else that of the jar, which is for Linux on x86-64, else {@code testkit}
 * on the path. Where there is none the test is aborted, or fails if {@link #REQUIRED_PROPERTY} says so.
 *
 * <p>A condition is a text ({@code docs/FORMATS.md}); {@link Conditions} writes it. In each message conditions are counted from 0.
 */
@API(status = API.Status.EXPERIMENTAL, since = "0.1")
public final class RecordAssert {

    /** The system property that names the program. */
    public static final String PROGRAM_PROPERTY = "testkit.program";
    /** The system property by which a test fails, with the value {@code true}, where there is no program; else it is aborted. */
    public static final String REQUIRED_PROPERTY = "testkit.required";
    /** The system property that says how many seconds an answer may take; it is 60 where it is missing. */
    public static final String SECONDS_PROPERTY = "testkit.seconds";

    static final String ALL = "all";
    private static final List<String> SELECTIONS = Collections.unmodifiableList(Arrays.asList(ALL, "tests", "containers", "skipped", "started",
            "finished", "aborted", "succeeded", "failed", "reporting", "dynamic", "files"));
    private static final String PROGRAM = "testkit";
    private static final int SECONDS = 60;
    /** The statuses of a shell, to which Java hands what isn't a program of this machine. */
    private static final int NOT_A_PROGRAM = 126;
    private static final int NO_PROGRAM = 127;
    /** How many events an assertion counts at most one by one. */
    private static final int MOST_NEAR = 20;
    /** What the program says of a record without an end. */
    private static final Pattern CUT_OFF = Pattern.compile("testkit: (record is cut off after line \\d+)\n");
    /** What the program says of a condition that it refuses, with the number of its word. */
    private static final Pattern REFUSED_CONDITION = Pattern.compile("testkit: condition (\\d+) is (.*)\n");
    /** How an answer begins that a condition doesn't hold, with its number. */
    private static final Pattern NO = Pattern.compile("no (\\d+)\n");
    /** The form of an id's text. */
    private static final Pattern ID = Pattern.compile("S(/S)*".replace("S", "\\[[^\\[\\]:/]+:[^\\[\\]:/]+]"));
    /** How an answer begins that two executions overlap. */
    private static final Pattern OVERLAP = Pattern.compile("no \\d+ \\d+\n");
    /** What a shell takes for one word as it stands. */
    private static final Pattern PLAIN_WORD = Pattern.compile("[\\w./:=@%+,-]+");

    /** How a process ended, and what it wrote. */
    private static final class Ran {

        private final int status;
        private final String output;
        private final String errors;

        Ran(int status, String output, String errors) {
            this.status = status;
            this.output = output;
            this.errors = errors;
        }
    }

    private final RecordSource source;
    private final String selection;
    /** What holds of each event that is asked, beside the selection: what {@link #below} and {@link #only} said, empty where they didn't. */
    private final String below;
    private final String only;
    private final String description;

    private RecordAssert(RecordSource source, String selection, String below, String only, String description) {
        this.source = source;
        this.selection = selection;
        this.below = below;
        this.only = only;
        this.description = description;
    }

    RecordAssert(RecordSource source) {
        this(source, ALL, "", "", "");
    }

    /**
     * Begins assertions about a record that stands in a file.
     *
     * @param record the file; never {@code null}
     * @return the assertions; never {@code null}
     */
    public static RecordAssert assertThat(Path record) {
        if (!Files.isRegularFile(given(record, "record"))) {
            throw new IllegalArgumentException("there is no record " + record);
        }
        return new RecordAssert(new RecordSource(record));
    }

    /** Returns the argument of this name, which has to be there. */
    static <T> T given(T argument, String name) {
        if (argument == null) {
            throw new IllegalArgumentException(name + " must not be null");
        }
        return argument;
    }

    /** Returns the array of this name, which has to be there, as each of its items. */
    static <T> T[] allGiven(T[] items, String name) {
        for (int i = 0; i < given(items, name).length; i++) {
            given(items[i], name + "[" + i + "]");
        }
        return items;
    }

    /** Returns the same assertions, never {@code null}, with {@code text}, never {@code null}, at the beginning of each message. */
    public RecordAssert describedAs(String text) {
        return new RecordAssert(source, selection, below, only, "[" + given(text, "text") + "] ");
    }

    /**
     * Returns assertions of which statistics, matches, counts and lists see the events alone that the selection keeps.
     * The others always ask about the whole record.
     *
     * @param events the selection, as {@code failed}; never {@code null}
     * @return the assertions; never {@code null}
     */
    public RecordAssert on(String events) {
        if (!SELECTIONS.contains(given(events, "events"))) {
            throw new IllegalArgumentException(events + " is none of the selections " + String.join(", ", SELECTIONS));
        }
        return new RecordAssert(source, events, below, only, description);
    }

    /** Does {@link #on} with the events of tests; never {@code null}. */
    public RecordAssert tests() {
        return on("tests");
    }

    /** Does {@link #on} with the events of containers; never {@code null}. */
    public RecordAssert containers() {
        return on("containers");
    }

    /**
     * Returns assertions that see, as those of {@link #on}, the events alone of which a condition holds, in place of the condition before.
     *
     * @param condition the condition; never {@code null}
     * @return the assertions; never {@code null}
     */
    public RecordAssert only(String condition) {
        return new RecordAssert(source, selection, below, given(condition, "condition"), description);
    }

    /**
     * Returns assertions that see, as those of {@link #on}, the events alone of the descriptor with this id and of all below it, in place of
     * the id before. Where the record has no such event this fails.
     *
     * @param id the text of the id; never {@code null}
     * @return the assertions; never {@code null}
     * @throws IllegalStateException where an id begins with this one and has it once more, which no condition tells
     */
    public RecordAssert below(String id) {
        if (!ID.matcher(given(id, "id")).matches()) {
            throw new IllegalArgumentException(id + " is no id");
        }
        String isWithin = Conditions.hasId("]/" + id);
        String[] within = {"list", ALL, Conditions.hasId(id), isWithin};
        List<String> lines = lines(2, within);
        List<String> explained = lines(2, joined(within, "explain"));
        for (int i = 0; i < lines.size(); i++) {
            // (behind the line and three blanks stands the descriptor)
            if (explained.get(i).startsWith(RecordText.field(id), lines.get(i).length() + 3)) {
                throw new IllegalStateException(description + id + " stands twice in an id: " + explained.get(i));
            }
        }
        String[] whole = {"list", ALL, Conditions.hasId(id), Conditions.not(isWithin)};
        if (lines(2, whole).isEmpty()) {
            throw refused("no event is of " + id + ", or of an id below it: " + asked(whole));
        }
        return new RecordAssert(source, selection, Conditions.all(whole[2], whole[3]), only, description);
    }

    private String[] conditions() {
        return Stream.of(below, only).filter(it -> !it.isEmpty()).toArray(String[]::new);
    }

    /** Returns the condition that this one holds and those of {@link #below} and {@link #only}. */
    private String within(String asked) {
        return conditions().length == 0 ? asked : Conditions.all(joined(new String[] {asked}, conditions()));
    }

    /**
     * Returns the path of the record, as for {@code testkit-timeline}; never {@code null}. Of results and runs it is there until the process
     * ends.
     */
    public Path recordPath() {
        return source.path();
    }

    /**
     * Asserts that each descriptor starts, finishes and nests as a listener may expect, and was registered before its first event.
     *
     * @return these assertions; never {@code null}
     */
    public RecordAssert keepsLifecycle() {
        if (!source.unregistered().isEmpty()) {
            throw refused("nobody registered " + String.join(", ", source.unregistered()) + " before the first event: "
                    + quoted(source.kept().toString()));
        }
        return ask("yes", 0, "explain", "lifecycle");
    }

    /**
     * Asserts that the events are so many, as {@code "failed=1"}.
     *
     * @param counts the words, of which there is one at least; never {@code null}, nor is one of them
     * @return these assertions; never {@code null}
     */
    public RecordAssert hasStatistics(String... counts) {
        String[] question = question(allGiven(counts, "counts"), "explain", "stats", selection);
        Ran ran = answer(1, counts.length, question);
        String expected = String.join(", ", counts);
        Stream<String> names = Arrays.stream(counts).map(it -> it.split("=")[0]);
        if (conditions().length > 0) {
            // (the words are good, and the program counts without a condition)
            Set<String> seen = new HashSet<>(list());
            String actual = names.map(it -> it + "=" + on(it).list().stream().filter(seen::contains).count()).collect(Collectors.joining(", "));
            if (!actual.equals(expected)) {
                throw refused(asked(listing()) + actual + " in place of " + expected, expected, actual);
            }
            return this;
        }
        if (ran.status == 1 && !ran.output.isEmpty()) {
            List<String> lines = Arrays.asList(ran.output.split("\n"));
            String actual = names.map(name -> name + lines.stream().filter(it -> it.startsWith(name + " "))
                    .map(it -> "=" + it.substring(name.length() + 1)).findFirst().orElse("?")).collect(Collectors.joining(", "));
            throw refused(asked(question) + ran.output, expected, actual);
        }
        return taken(ran, "skipped ", question);
    }

    /**
     * Asserts that there are as many events as conditions, and each condition holds of the event in its place.
     *
     * @param conditions the conditions, of which there is one at least; never {@code null}, nor is one of them
     * @return these assertions; never {@code null}
     */
    public RecordAssert matchesExactly(String... conditions) {
        return conditions().length == 0 ? matches("exactly", conditions) : matchesInOrder(conditions).hasCount(conditions.length, Conditions.all());
    }

    /**
     * Asserts that each condition holds of some event.
     *
     * @param conditions the conditions, of which there is one at least; never {@code null}, nor is one of them
     * @return these assertions; never {@code null}
     */
    public RecordAssert matchesLoosely(String... conditions) {
        return matches("loosely", conditions);
    }

    /**
     * Asserts that the conditions hold of events that follow each other, in this order.
     *
     * @param conditions the conditions, of which there is one at least; never {@code null}, nor is one of them
     * @return these assertions; never {@code null}
     */
    public RecordAssert matchesInOrder(String... conditions) {
        String[] asked = within(conditions);
        return ask("yes", asked.length, question(asked, "explain", selection, "in-order"));
    }

    /**
     * Asks for a match in which a condition stands for itself, and tells of each that doesn't hold: {@code all()} in its place holds, so the
     * next question has the next one.
     */
    private RecordAssert matches(String mode, String... conditions) {
        String[] left = within(conditions);
        String[] question = question(left, "explain", selection, mode);
        Ran ran = answer(1, left.length, question);
        if (ran.status != 1 || ran.output.isEmpty()) {
            return taken(ran, "yes", question);
        }
        StringBuilder faults = new StringBuilder();
        int before = -1;
        while (ran.status == 1) {
            Matcher no = NO.matcher(ran.output);
            int number = no.lookingAt() ? Integer.parseInt(no.group(1)) : left.length;
            faults.append(number > before ? ran.output : "");
            if (number <= before || number >= left.length) {
                break;
            }
            before = number;
            left[number] = Conditions.all();
            ran = answer(1, left.length, question(left, "explain", selection, mode));
        }
        throw refused(asked(question) + faults);
    }

    /**
     * Asserts that there are two executions whose start meets the condition, and no two of these overlap.
     *
     * @param writers the condition; never {@code null}
     * @return these assertions; never {@code null}
     */
    public RecordAssert exclusive(String writers) {
        return ask("yes", 1, "explain", "exclusive", given(writers, "writers"));
    }

    /**
     * Asserts that no execution whose start meets the first condition overlaps another one that meets the first or the second, and that
     * there are two such executions.
     *
     * @param writers the first condition; never {@code null}
     * @param readers the second condition; never {@code null}
     * @return these assertions; never {@code null}
     */
    public RecordAssert exclusive(String writers, String readers) {
        return ask("yes", 2, "explain", "exclusive", given(writers, "writers"), given(readers, "readers"));
    }

    /**
     * Asserts that there are two executions that conflict over a lock, and no two of these overlap. The locks are those in the record: of
     * Jupiter's {@code @ResourceLock} and {@code @Isolated}, and of each other engine whose descriptors are JUnit's {@code Node}.
     *
     * @return these assertions; never {@code null}
     */
    public RecordAssert keepsLocks() {
        return ask("yes", 0, "explain", "locks");
    }

    /**
     * Asserts that an execution whose start meets the first condition overlaps another one that meets the first or the second: that
     * {@link #exclusive(String, String)} fails for that. Where there are no two such executions this fails too.
     *
     * @param first the first condition; never {@code null}
     * @param second the second condition; never {@code null}
     * @return these assertions; never {@code null}
     */
    public RecordAssert overlap(String first, String second) {
        String[] question = {"explain", "exclusive", given(first, "first"), given(second, "second")};
        Ran ran = answer(1, 2, question);
        if (ran.output.startsWith(ran.status == 0 ? "yes" : "no pair")) {
            throw refused("nothing overlaps: " + asked(question) + ran.output);
        }
        if (ran.status == 0 || !OVERLAP.matcher(ran.output).lookingAt()) {
            throw new IllegalStateException(ending(question, ran));
        }
        return this;
    }

    /**
     * Asserts that there is an execution that finished and whose start meets the condition, and that the stamps of each of these lie so far
     * apart.
     *
     * @param condition the condition; never {@code null}
     * @param from the least difference
     * @param to what each difference is below
     * @return these assertions; never {@code null}
     */
    public RecordAssert takes(String condition, long from, long to) {
        // (whether a condition holds of a start its descriptor says alone)
        Set<String> keys = lines(1, "list", "started", given(condition, "condition")).stream().map(it -> it.split("[ |]")[3])
                .collect(Collectors.toSet());
        String[] question = {"explain", "executions"};
        List<String> found = lines(0, question).stream().filter(it -> keys.contains(it.split(" ")[0]) && !it.split(" ")[1].equals("skipped"))
                .collect(Collectors.toList());
        List<String> others = found.stream().filter(it -> !isBetween(it.split(" "), from, to)).collect(Collectors.toList());
        if (found.isEmpty() || !others.isEmpty()) {
            throw refused(others.size() + " of " + found.size() + " executions of " + condition + " don't take " + from + " to below " + to + ": "
                    + asked(question) + String.join("\n", others));
        }
        return this;
    }

    private static boolean isBetween(String[] execution, long from, long to) {
        BigInteger length = new BigInteger(execution[3]).subtract(new BigInteger(execution[2]));
        return length.compareTo(BigInteger.valueOf(from)) >= 0 && length.compareTo(BigInteger.valueOf(to)) < 0;
    }

    /**
     * Asserts that the condition holds of so many events.
     *
     * @param count how many
     * @param condition the condition; never {@code null}
     * @return these assertions; never {@code null}
     */
    public RecordAssert hasCount(long count, String condition) {
        List<String> found = list(given(condition, "condition"));
        if (found.size() == count) {
            return this;
        }
        String said = count + " events wanted, " + found.size() + " found: ";
        if (found.size() > count || found.size() > MOST_NEAR) {
            throw refused(said + asked(listing(condition)) + String.join("\n", found), count, (long) found.size());
        }
        // (a match of one more than there are tells of the events that came near)
        String[] near = Collections.nCopies(found.size() + 1, within(condition)).toArray(new String[0]);
        String[] question = joined(near, "explain", selection, "in-order");
        throw refused(said + asked(question) + answer(1, near.length, question).output, count, (long) found.size());
    }

    /**
     * Returns a line for each event of which each condition holds: its position, its line in the record, its descriptor's id and name.
     *
     * @param conditions the conditions; never {@code null}, nor is one of them
     * @return the lines; never {@code null}
     */
    public List<String> list(String... conditions) {
        return lines(allGiven(conditions, "conditions").length, listing(conditions));
    }

    /** Prints {@link #list} on standard output, and returns these assertions; never {@code null}. */
    public RecordAssert debug() {
        list().forEach(System.out::println);
        return this;
    }

    private String[] listing(String... conditions) {
        String[] asked = within(conditions);
        return joined(asked.length == 0 ? conditions() : asked, "explain", "list", selection);
    }

    /** Returns these conditions, each with those of {@link #below} and {@link #only}. */
    private String[] within(String... conditions) {
        return Arrays.stream(allGiven(conditions, "conditions")).map(this::within).toArray(String[]::new);
    }

    /** Returns the words of a question, which has to ask for something: without a condition the program may say yes. */
    private static String[] question(String[] asked, String... first) {
        if (asked.length == 0) {
            throw new IllegalArgumentException(String.join(" ", first) + " needs at least one word more");
        }
        return joined(asked, first);
    }

    private static String[] joined(String[] asked, String... first) {
        return Stream.of(first, asked).flatMap(Arrays::stream).toArray(String[]::new);
    }

    /** Returns the lines that the program answers to a question that ends with so many conditions. */
    private List<String> lines(int conditions, String... question) {
        Ran ran = answer(0, conditions, question);
        return ran.output.isEmpty() ? Collections.emptyList() : Arrays.asList(ran.output.split("\n"));
    }

    /** Asks the program a question that ends with so many conditions, whose yes begins with {@code yes}. */
    private RecordAssert ask(String yes, int conditions, String... question) {
        Ran ran = answer(1, conditions, question);
        if (ran.status == 1 && !ran.output.isEmpty()) {
            throw refused(asked(question) + ran.output);
        }
        return taken(ran, yes, question);
    }

    private RecordAssert taken(Ran ran, String yes, String... question) {
        if (ran.status != 0 || !ran.output.startsWith(yes)) {
            throw new IllegalStateException(ending(question, ran));
        }
        return this;
    }

    /** Returns the program's answer to a question that ends with so many conditions; one of a greater status is none. */
    private Ran answer(int mostStatus, int conditions, String... question) {
        Ran ran;
        try {
            ran = source.ask(record -> run(joined(question, program(), "ask"), record));
        } catch (IOException | RuntimeException fault) {
            if (fault instanceof TestAbortedException) {
                throw (TestAbortedException) fault;
            }
            throw new IllegalStateException(description + String.join(" ", question) + ": " + fault.getMessage(), fault);
        }
        if (ran.status == NOT_A_PROGRAM || ran.status == NO_PROGRAM) {
            throw withoutProgram("Cannot run program \"" + program() + "\": " + ran.errors);
        }
        Matcher cut = CUT_OFF.matcher(ran.errors);
        if (ran.status == 2 && cut.matches()) {
            throw refused(asked(question) + cut.group(1) + "; what stands before: " + command("recover"));
        }
        if (ran.status == 2) {
            Matcher refusal = REFUSED_CONDITION.matcher(ran.errors);
            // (the program counts the words after `explain`)
            int first = question.length - conditions - 1;
            String why = refusal.matches() ? "condition " + (Integer.parseInt(refusal.group(1)) - first) + " is " + refusal.group(2) : ran.errors;
            throw new IllegalArgumentException(description + command("ask", question) + " is refused: " + why);
        }
        if (ran.status < 0 || ran.status > mostStatus) {
            throw new IllegalStateException(ending(question, ran));
        }
        return ran;
    }

    private String ending(String[] question, Ran ran) {
        return description + command("ask", question) + " ends with status " + ran.status + ": " + ran.errors + ran.output;
    }

    /** Returns the program that is to be run. */
    private String program() {
        String named = System.getProperty(PROGRAM_PROPERTY);
        if (named != null) {
            return named;
        }
        try {
            Path packed = RecordProgram.path();
            return packed == null ? PROGRAM : packed.toString();
        } catch (IOException fault) {
            throw new IllegalStateException("the program can't be taken out of the jar: " + fault.getMessage(), fault);
        }
    }

    /** Returns the command of a question, as a shell takes it, with a file that stays. */
    private String command(String word, String... others) {
        String words = Arrays.stream(joined(others, word)).map(RecordAssert::quoted).collect(Collectors.joining(" "));
        String named = System.getProperty(PROGRAM_PROPERTY, PROGRAM);
        return quoted(named) + " " + words + " < " + quoted(source.kept().toString());
    }

    /** Returns the first line of a message about a question: its command. */
    private String asked(String... question) {
        return command("ask", question) + "\n";
    }

    private static String quoted(String word) {
        return PLAIN_WORD.matcher(word).matches() ? word : "'" + word.replace("'", "'\\''") + "'";
    }

    private AssertionFailedError refused(String why) {
        return new AssertionFailedError(description + why);
    }

    private AssertionFailedError refused(String why, Object expected, Object actual) {
        return new AssertionFailedError(description + why, expected, actual);
    }

    /** Runs a program with the record as its input. */
    private Ran run(String[] words, Path record) throws IOException {
        for (String word : words) {
            // Java would hand over other letters.
            Charset[] charsets = {Charset.defaultCharset(), Charset.forName(System.getProperty("sun.jnu.encoding", "UTF-8"))};
            if (!Arrays.stream(charsets).allMatch(it -> Arrays.equals(word.getBytes(it), word.getBytes(UTF_8)))) {
                throw new IllegalStateException("Java changes \"" + word + "\" in this locale, and wouldn't with LC_ALL=C.UTF-8");
            }
        }
        File output = File.createTempFile("testkit-", ".output");
        File errors = File.createTempFile("testkit-", ".errors");
        try {
            Process process = start(new ProcessBuilder(words).redirectInput(record.toFile()).redirectOutput(output).redirectError(errors));
            int seconds = Integer.getInteger(SECONDS_PROPERTY, SECONDS);
            try {
                if (!process.waitFor(seconds, TimeUnit.SECONDS)) {
                    throw new IllegalStateException("it takes more than " + seconds + " seconds");
                }
            } catch (InterruptedException fault) {
                Thread.currentThread().interrupt();
                throw new IllegalStateException("the thread was interrupted", fault);
            } finally {
                process.destroyForcibly();
            }
            return new Ran(process.exitValue(), text(output), text(errors));
        } finally {
            output.delete();
            errors.delete();
        }
    }

    /** Starts the program, or aborts the test where there is none. */
    private Process start(ProcessBuilder program) {
        try {
            return program.start();
        } catch (IOException fault) {
            throw withoutProgram(fault.getMessage());
        }
    }

    /** Returns what a test gets without a program. One that was named, or is required, has to be there: a typing error is no green build. */
    private RuntimeException withoutProgram(String why) {
        String said = description + why + ": on Linux x86-64 the jar has a program, and elsewhere docs/JUNIT.md says what helps; the system property "
                + PROGRAM_PROPERTY + " names another one";
        boolean isRequired = Boolean.getBoolean(REQUIRED_PROPERTY) || System.getProperty(PROGRAM_PROPERTY) != null;
        return isRequired ? new IllegalStateException(said) : new TestAbortedException(said);
    }

    private static String text(File file) throws IOException {
        return new String(Files.readAllBytes(file.toPath()), UTF_8);
    }

    /**
     * Texts of conditions, with the escapes in what is given. No name is one of JUnit's {@code EventConditions} or
     * {@code TestExecutionResultConditions}.
     */
    public static final class Conditions {

        private Conditions() {
        }

        /**
         * Returns the condition that one of the segments of the descriptor's id has this tag and this value, both whole.
         *
         * @param tag the tag; never {@code null}
         * @param value the value; never {@code null}
         * @return the condition; never {@code null}
         */
        public static String hasSegment(String tag, String value) {
            return atom("segment", given(tag, "tag"), given(value, "value"));
        }

        /** Returns the condition, never {@code null}, that the event is a finish with a message that contains {@code part}, never {@code null}. */
        public static String hasMessage(String part) {
            return atom("message", given(part, "part"));
        }

        /** Returns the condition, never {@code null}, that the event's descriptor is a test. */
        public static String isTest() {
            return "test";
        }

        /** Returns the condition, never {@code null}, that the event's descriptor is a container. */
        public static String isContainer() {
            return "container";
        }

        /** Returns the condition, never {@code null}, that the event's descriptor is the root of an engine. */
        public static String isEngine() {
            return "engine";
        }

        /** Returns the condition, never {@code null}, that the text of the descriptor's id contains {@code part}, never {@code null}. */
        public static String hasId(String part) {
            return atom("id", given(part, "part"));
        }

        /** Returns the condition, never {@code null}, that the descriptor's display name is {@code name}, never {@code null}. */
        public static String hasName(String name) {
            return atom("name", given(name, "name"));
        }

        /**
         * Returns the condition that the event is of a kind.
         *
         * @param kind dynamic, skip, start, finish, report or file; never {@code null}
         * @return the condition; never {@code null}
         */
        public static String hasKind(String kind) {
            return atom("kind", given(kind, "kind"));
        }

        /** Returns the condition, never {@code null}, that the event is a start. */
        public static String hasStarted() {
            return "started";
        }

        /** Returns the condition, never {@code null}, that the event is a finish, successful. */
        public static String hasSucceeded() {
            return "succeeded";
        }

        /** Returns the condition, never {@code null}, that the event is a finish, failed. */
        public static String hasFailed() {
            return "failed";
        }

        /** Returns the condition, never {@code null}, that the event is a finish, failed with {@code message}, never {@code null}. */
        public static String hasFailed(String message) {
            return atom("failed", given(message, "message"));
        }

        /** Returns the condition, never {@code null}, that the event is a finish, aborted. */
        public static String wasAborted() {
            return "aborted";
        }

        /** Returns the condition, never {@code null}, that the event is a finish, aborted with {@code message}, never {@code null}. */
        public static String wasAborted(String message) {
            return atom("aborted", given(message, "message"));
        }

        /** Returns the condition, never {@code null}, that the event is a skip with {@code reason}, never {@code null}. */
        public static String wasSkipped(String reason) {
            return atom("skipped", given(reason, "reason"));
        }

        /** Returns the condition, never {@code null}, that the event is a file with {@code path}, never {@code null}. */
        public static String hasFile(String path) {
            return atom("file", given(path, "path"));
        }

        /**
         * Returns the condition that the event is a report entry of exactly these pairs.
         *
         * @param keysAndValues of each pair its key and its value; never {@code null}, nor is one of them
         * @return the condition; never {@code null}
         */
        public static String hasEntry(String... keysAndValues) {
            if (allGiven(keysAndValues, "keysAndValues").length % 2 == 1) {
                throw new IllegalArgumentException("the last key has no value: " + keysAndValues[keysAndValues.length - 1]);
            }
            return atom("entry", keysAndValues);
        }

        /**
         * Returns the condition that the event is the entry that tells the class of what was thrown, before a finish, where
         * {@code testkit.throwables} is set.
         *
         * @param type the class; never {@code null}
         * @return the condition; never {@code null}
         */
        public static String hasThrown(Class<? extends Throwable> type) {
            return hasEntry("throwable", given(type, "type").getName());
        }

        /** Returns the condition, never {@code null}, that each of {@code conditions} holds, none of which is {@code null}, nor are they. */
        public static String all(String... conditions) {
            return joined("all", allGiven(conditions, "conditions"));
        }

        /** Returns the condition, never {@code null}, that one of {@code conditions} holds, none of which is {@code null}, nor are they. */
        public static String any(String... conditions) {
            return joined("any", allGiven(conditions, "conditions"));
        }

        /** Returns the condition, never {@code null}, that {@code condition}, never {@code null}, doesn't hold. */
        public static String not(String condition) {
            return joined("not", given(condition, "condition"));
        }

        private static String joined(String name, String... parts) {
            return name + "(" + String.join(",", parts) + ")";
        }

        private static String atom(String name, String... texts) {
            // (a record has U+FFFD too in place of an unpaired surrogate)
            return joined(name, Arrays.stream(texts).map(it -> RecordText.paired(it).replace("%", "%25").replace("(", "%28").replace(")", "%29")
                    .replace(",", "%2C")).toArray(String[]::new));
        }
    }
}
