package testkit;

import static java.nio.charset.StandardCharsets.UTF_8;
import static org.junit.jupiter.api.Assertions.assertEquals;
import static org.junit.jupiter.api.Assertions.assertFalse;
import static org.junit.jupiter.api.Assertions.assertThrows;
import static org.junit.jupiter.api.Assertions.assertTrue;
import static org.junit.jupiter.api.Assumptions.assumeTrue;
import static testkit.RecordAssert.Conditions.all;
import static testkit.RecordAssert.Conditions.any;
import static testkit.RecordAssert.Conditions.hasEntry;
import static testkit.RecordAssert.Conditions.hasFailed;
import static testkit.RecordAssert.Conditions.hasFile;
import static testkit.RecordAssert.Conditions.hasId;
import static testkit.RecordAssert.Conditions.hasKind;
import static testkit.RecordAssert.Conditions.hasMessage;
import static testkit.RecordAssert.Conditions.hasName;
import static testkit.RecordAssert.Conditions.hasSegment;
import static testkit.RecordAssert.Conditions.hasStarted;
import static testkit.RecordAssert.Conditions.hasSucceeded;
import static testkit.RecordAssert.Conditions.isContainer;
import static testkit.RecordAssert.Conditions.isEngine;
import static testkit.RecordAssert.Conditions.isTest;
import static testkit.RecordAssert.Conditions.not;
import static testkit.RecordAssert.Conditions.wasAborted;
import static testkit.RecordAssert.Conditions.wasSkipped;

import java.io.ByteArrayOutputStream;
import java.io.IOException;
import java.io.PrintStream;
import java.io.UncheckedIOException;
import java.lang.reflect.Array;
import java.lang.reflect.InvocationTargetException;
import java.lang.reflect.Method;
import java.lang.reflect.Modifier;
import java.nio.charset.Charset;
import java.nio.file.Files;
import java.nio.file.Path;
import java.nio.file.Paths;
import java.nio.file.attribute.PosixFilePermissions;
import java.util.ArrayList;
import java.util.Arrays;
import java.util.Collections;
import java.util.HashMap;
import java.util.LinkedHashMap;
import java.util.List;
import java.util.Map;
import java.util.function.Function;
import java.util.function.UnaryOperator;
import java.util.stream.Collectors;

import org.junit.jupiter.api.AfterEach;
import org.junit.jupiter.api.BeforeEach;
import org.junit.jupiter.api.Test;
import org.junit.jupiter.api.io.TempDir;
import org.junit.platform.engine.ExecutionRequest;
import org.junit.platform.engine.TestDescriptor.Type;
import org.junit.platform.engine.UniqueId;
import org.junit.platform.testkit.engine.EngineExecutionResults;
import org.junit.platform.testkit.engine.ExecutionRecorder;
import org.opentest4j.AssertionFailedError;
import org.opentest4j.TestAbortedException;
import testkit.ScriptedEngine.Script;

/** Tests of {@link RecordAssert} with a script in place of the program, and with the program that {@code testkit.real} names. */
class RecordAssertTests {

    /** The names of JUnit's classes of conditions, up to version 6. */
    private static final List<String> NAMES_OF_JUNIT = Arrays.asList("event", "engine", "test", "container", "nestedContainer",
            "dynamicTestRegistered", "uniqueId", "uniqueIdSubstring", "uniqueIdSubstrings", "displayName", "skippedWithReason", "started",
            "abortedWithReason", "finishedWithCause", "finishedWithFailure", "finishedSuccessfully", "finished", "type", "reportEntry",
            "legacyReportingName", "fileEntry", "status", "throwable", "cause", "rootCause", "suppressed", "instanceOf", "message");

    private static final String TWO_TESTS = "testkit-record|2\nN|C|[engine:e]|e\nN|T|[engine:e]/[t:1]|one\nN|T|[engine:e]/[t:2]|two\n"
            + "E|1|0|0|start\nE|1|1|0|start\nE|2|2|0|start\nE|1|1|0|finish|fail|boom\nE|2|2|0|finish|ok\nE|1|0|0|finish|ok\n";
    private static final String APART = "testkit-record|2\nN|C|[engine:e]|e\nN|T|[engine:e]/[t:1]|one\nN|T|[engine:e]/[t:2]|two\n"
            + "E|1|1|0|start\nE|1|1|0|finish|ok\nE|2|2|0|start\nE|2|2|0|finish|ok\n";
    private static final String BROKEN = "testkit-record|2\nN|T|[engine:e]|e\nE|1|0|0|start\n";
    private static final String FORGOTTEN = "testkit-record|2\nN|C|[engine:e]|e\nN|T|[engine:e]/[t:1]|one\nE|1|0|0|start\nE|1|0|0|finish|ok\n";
    /** An engine within another one, beside one of the same id, and one within itself. */
    private static final String NESTED = "testkit-record|2\nN|C|[engine:s]|s\nN|C|[engine:s]/[engine:e]|inner\nN|T|[engine:s]/[engine:e]/[t:1]|one\n"
            + "N|C|[engine:e]|e\nN|T|[engine:e]/[t:1]|one\nN|T|[engine:e]/[t:10]|ten\nN|C|[engine:\\p]|f\nN|C|[engine:\\p]/[engine:\\p]|f in f\n"
            + "E|1|0|0|start\nE|1|1|0|start\nE|1|2|0|start\nE|1|3|0|start\nE|1|4|0|start\nE|1|5|0|skip|off\nE|1|6|0|start\nE|1|7|0|start\n";
    /** Tests that take 20 and 1, the latter also skipped, one that is only skipped, and a container that never finishes. */
    private static final String TIMES = "testkit-record|2\nN|C|[engine:e]|e\nN|T|[engine:e]/[t:1]|one\nN|T|[engine:e]/[t:2]|two\n"
            + "N|T|[engine:e]/[t:3]|off\nE|1|0|5|start\nE|1|1|10|start\nE|1|1|30|finish|ok\nE|2|2|20|start\nE|1|3|40|skip|x\nE|2|2|21|finish|ok\n"
            + "E|1|2|41|skip|again\n";
    private static final String STATISTICS = "skipped 0";
    private static final String PACKED = "testkit-x86_64-linux";

    @TempDir
    Path folder;
    private Path record;

    @BeforeEach
    void writeRecord() throws IOException {
        record = folder.resolve("run.record");
        Files.write(record, TWO_TESTS.getBytes(UTF_8));
    }

    @AfterEach
    void clearProperties() {
        System.clearProperty("testkit.program");
        System.clearProperty("testkit.seconds");
        System.clearProperty("testkit.required");
    }

    /** Puts a script in place of a program, which keeps its words and its input beside itself. */
    private Path script(String name, String... lines) throws IOException {
        Path script = folder.resolve(name);
        String keep = "#!/bin/sh\nprintf '%s\\n' \"$@\" > \"$0.words\"\ncat > \"$0.input\"\n";
        Files.write(script, (keep + String.join("\n", lines) + "\n").getBytes(UTF_8));
        assertTrue(script.toFile().setExecutable(true));
        return script;
    }

    private void program(String... lines) throws IOException {
        System.setProperty("testkit.program", script("program", lines).toString());
    }

    private static String text(Path path) throws IOException {
        return new String(Files.readAllBytes(path), UTF_8);
    }

    private List<String> words(String name) throws IOException {
        return Files.readAllLines(folder.resolve(name + ".words"));
    }

    /** Each method with the words that it has to ask. */
    private static Map<String, Function<RecordAssert, RecordAssert>> methods() {
        Map<String, Function<RecordAssert, RecordAssert>> found = new LinkedHashMap<>();
        found.put("ask explain lifecycle", RecordAssert::keepsLifecycle);
        found.put("ask explain stats containers failed=1 skipped=0", it -> it.containers().hasStatistics("failed=1", "skipped=0"));
        found.put("ask explain all exactly a b", it -> it.matchesExactly("a", "b"));
        found.put("ask explain tests loosely c", it -> it.tests().matchesLoosely("c"));
        found.put("ask explain failed in-order d e f", it -> it.on("failed").describedAs("run 1").matchesInOrder("d", "e", "f"));
        found.put("ask explain exclusive g", it -> it.exclusive("g"));
        found.put("ask explain exclusive h i", it -> it.containers().exclusive("h", "i"));
        found.put("ask explain locks", it -> it.tests().keepsLocks());
        found.put("ask explain tests loosely all(k,l)", it -> it.only("j").tests().only("k").matchesLoosely("l"));
        found.put("ask explain all in-order all(m,n) all(m,o)", it -> it.only("m").describedAs("run 1").matchesInOrder("n", "o"));
        return found;
    }

    @Test
    void eachMethodAsksAndTakesAYes() throws IOException {
        program("[ \"$3\" = stats ] && echo " + STATISTICS + " || echo yes");
        for (Map.Entry<String, Function<RecordAssert, RecordAssert>> method : methods().entrySet()) {
            method.getValue().apply(RecordAssert.assertThat(record));
            assertEquals(method.getKey(), String.join(" ", words("program")));
            assertEquals(TWO_TESTS, text(folder.resolve("program.input")));
        }
    }

    @Test
    void eachMethodRefusesANoWithItsExplanation() throws IOException {
        program("echo no 4", "echo why", "exit 1");
        for (Map.Entry<String, Function<RecordAssert, RecordAssert>> method : methods().entrySet()) {
            RecordAssert asserting = RecordAssert.assertThat(record).describedAs("run 1");
            Error fault = assertThrows(AssertionFailedError.class, () -> method.getValue().apply(asserting));
            String said = "[run 1] " + folder.resolve("program") + " " + method.getKey() + " < " + record + "\nno 4\nwhy\n";
            assertEquals(said, fault.getMessage().replace("'", ""));
        }
    }

    @Test
    void eventsAreListedAndCounted() throws IOException {
        program("echo 0 a; echo 3 b");
        RecordAssert asserting = RecordAssert.assertThat(record).tests().hasCount(2, "x");
        assertEquals("ask explain list tests x", String.join(" ", words("program")));
        String[] asked = {"list tests x", "tests in-order x x x"};
        AssertionFailedError fault;
        for (int count : new int[] {1, 3}) {
            fault = assertThrows(AssertionFailedError.class, () -> asserting.hasCount(count, "x"));
            String command = folder.resolve("program") + " ask explain " + asked[count / 2] + " < " + record;
            assertEquals(count + " events wanted, 2 found: " + command + "\n0 a\n3 b", fault.getMessage().trim());
            assertEquals(count + " 2", fault.getExpected().getValue() + " " + fault.getActual().getValue());
        }
        assertEquals(Arrays.asList("0 a", "3 b"), asserting.list());
        assertEquals("ask explain list tests", String.join(" ", words("program")));
        assertEquals("0 a\n3 b\n", printed(asserting::debug));
        assertEquals("ask explain list tests", String.join(" ", words("program")));
        program("[ \"$3\" = stats ] && echo failed 7 && echo skipped 0 && exit 1");
        AssertionFailedError statistics = assertThrows(AssertionFailedError.class, () -> asserting.hasStatistics("skipped=1", "failed=2"));
        assertEquals("skipped=1, failed=2", statistics.getExpected().getValue());
        assertEquals("skipped=0, failed=7", statistics.getActual().getValue());
        program("seq 21");
        fault = assertThrows(AssertionFailedError.class, () -> asserting.hasCount(22, "x"));
        assertTrue(fault.getMessage().contains(" ask explain list tests x < "), fault.getMessage());
        program("true");
        assertEquals(Collections.emptyList(), asserting.hasCount(0, "x").list("x", "y"));
        program("echo 0 a", "exit 1");
        assertThrows(IllegalStateException.class, () -> asserting.hasCount(1, "x"));
    }

    private static String printed(Runnable step) {
        PrintStream output = System.out;
        ByteArrayOutputStream printed = new ByteArrayOutputStream();
        System.setOut(new PrintStream(printed, true));
        try {
            step.run();
        } finally {
            System.setOut(output);
        }
        return printed.toString();
    }

    /** A match whose conditions stand for themselves tells of each that doesn't hold. */
    @Test
    void eachFaultOfAMatchIsTold() throws IOException {
        program("[ \"$5\" = a ] && echo no 0 && echo of a && exit 1", "[ \"$7\" = c ] && echo no 2 && echo of c && exit 1", "echo yes");
        for (UnaryOperator<RecordAssert> asking : Arrays.<UnaryOperator<RecordAssert>>asList(it -> it.matchesLoosely("a", "b", "c"),
                it -> it.matchesExactly("a", "b", "c"))) {
            Error fault = assertThrows(AssertionFailedError.class, () -> asking.apply(RecordAssert.assertThat(record)));
            assertTrue(fault.getMessage().endsWith("\nno 0\nof a\nno 2\nof c\n"), fault.getMessage());
            assertEquals("ask explain all " + words("program").get(3) + " all() b all()", String.join(" ", words("program")));
        }
    }

    /** Whatever is asked of a record that is cut off, the assertion fails. */
    @Test
    void aRecordThatIsCutOffFailsEachAssertion() throws IOException {
        program("echo testkit: record is cut off after line 5 >&2", "exit 2");
        String recover = "record is cut off after line 5; what stands before: " + folder.resolve("program") + " recover < ";
        for (Function<RecordAssert, RecordAssert> method : methods().values()) {
            Error fault = assertThrows(AssertionFailedError.class, () -> method.apply(RecordAssert.assertThat(record)));
            assertTrue(fault.getMessage().endsWith("\n" + recover + record), fault.getMessage());
        }
        assertThrows(AssertionFailedError.class, () -> RecordAssert.assertThat(record).list());
        assertThrows(AssertionFailedError.class, () -> RecordAssert.assertThat(record).hasCount(0, "x"));
    }

    /** The command of a message does in a shell what the assertion did. */
    @Test
    void theCommandCanBePasted() throws Exception {
        program("echo no 4", "exit 1");
        Path odd = Files.copy(record, folder.resolve("it's a record"));
        String[] conditions = {"test", "all(name(it's \"a\" $b),any())", "$HOME", "~", "*", "#", ""};
        Error fault = assertThrows(AssertionFailedError.class, () -> RecordAssert.assertThat(odd).matchesLoosely(conditions));
        Files.delete(folder.resolve("program.words"));
        assertEquals(1, new ProcessBuilder("sh", "-c", fault.getMessage().split("\n")[0]).redirectErrorStream(true).start().waitFor());
        assertEquals("ask explain all loosely " + String.join(" ", conditions), String.join(" ", words("program")));
        assertEquals(TWO_TESTS, text(folder.resolve("program.input")));
    }

    /** A condition has the number that it has in an answer, whatever words stand before it. */
    @Test
    void aConditionHasOneNumber() throws IOException {
        for (int word : new int[] {2, 3}) {
            program("echo 'testkit: condition " + word + " is bad at 3' >&2", "exit 2");
            RecordAssert asserting = RecordAssert.assertThat(record);
            for (Runnable asked : new Runnable[] {() -> asserting.matchesExactly("a", "b"), () -> asserting.list("a", "b")}) {
                RuntimeException fault = assertThrows(IllegalArgumentException.class, asked::run);
                assertTrue(fault.getMessage().endsWith(" is refused: condition " + (word - 2) + " is bad at 3"), fault.getMessage());
            }
        }
        program("echo 'testkit: condition 2 is too deep' >&2", "exit 2");
        RuntimeException fault = assertThrows(IllegalArgumentException.class, () -> RecordAssert.assertThat(record).exclusive("a", "b"));
        assertTrue(fault.getMessage().endsWith(" is refused: condition 1 is too deep"), fault.getMessage());
    }

    @Test
    void refusedWordsAreAnIllegalArgument() throws IOException {
        program("echo testkit: bad word 0 >&2", "exit 2");
        RuntimeException fault = assertThrows(IllegalArgumentException.class, () -> RecordAssert.assertThat(record).hasStatistics("x"));
        assertTrue(fault.getMessage().endsWith("ask explain stats all x < " + record + " is refused: testkit: bad word 0\n"), fault.getMessage());
    }

    @Test
    void aProgramThatBreaksIsAnIllegalState() throws IOException {
        String[][] scripts = {{"echo testkit: device failed >&2", "exit 3"}, {"echo no", "exit 70"}, {"kill -KILL $$"}, {"exit 1"}, {"exit 0"},
            {"echo " + STATISTICS}, {"echo yes", "exit 3"}};
        for (String[] lines : scripts) {
            program(lines);
            RuntimeException fault = assertThrows(IllegalStateException.class, () -> RecordAssert.assertThat(record).matchesLoosely("x"));
            assertTrue(fault.getMessage().contains("ask explain all loosely x < " + record), fault.getMessage());
        }
        program("echo yes");
        assertThrows(IllegalStateException.class, () -> RecordAssert.assertThat(record).hasStatistics("failed=1"));
    }

    @Test
    void aProgramThatIsNamedHasToBeThere() throws IOException {
        Path other = Files.write(folder.resolve("other"), new byte[] {0x7f, 'E', 'L', 'F', 0});
        assertTrue(other.toFile().setExecutable(true));
        for (Path program : new Path[] {folder.resolve("nowhere"), folder, other}) {
            System.setProperty("testkit.program", program.toString());
            RuntimeException fault = assertThrows(IllegalStateException.class, () -> RecordAssert.assertThat(record).exclusive("x"));
            assertTrue(fault.getMessage().contains(program + "\""), fault.getMessage());
        }
    }

    @Test
    void withoutAProgramATestIsAbortedUnlessOneIsRequired() {
        assumeTrue(RecordProgram.class.getResource(PACKED) == null);
        assumeTrue(Arrays.stream(System.getenv("PATH").split(":")).noneMatch(it -> Files.exists(Paths.get(it, "testkit"))));
        RuntimeException fault = assertThrows(TestAbortedException.class, () -> RecordAssert.assertThat(record).keepsLifecycle());
        assertTrue(fault.getMessage().contains("\"testkit\""), fault.getMessage());
        System.setProperty("testkit.required", "true");
        assertThrows(IllegalStateException.class, () -> RecordAssert.assertThat(record).keepsLifecycle());
    }

    /** (There is one in the second run of {@code test_assert.py}, in which its sum is right, and in the third, in which it isn't.) */
    @Test
    void theProgramOfTheJarAnswers() throws IOException {
        assumeTrue(RecordProgram.class.getResource(PACKED) != null);
        RecordAssert.assertThat(record).keepsLifecycle();
        Path program = RecordProgram.path();
        assertEquals(program, RecordProgram.path());
        assertEquals("rwx------", PosixFilePermissions.toString(Files.getPosixFilePermissions(program.getParent())));
        assertTrue(PosixFilePermissions.toString(Files.getPosixFilePermissions(program)).matches("rwx..-..-"));
        Files.delete(program);
        RecordAssert.assertThat(record).keepsLifecycle();
    }

    @Test
    void aProgramThatHangsIsKilled() throws Exception {
        program("echo $$ > \"$0.process\"", "exec sleep 300");
        System.setProperty("testkit.seconds", "1");
        long begun = System.nanoTime();
        RuntimeException fault = assertThrows(IllegalStateException.class, () -> RecordAssert.assertThat(record).keepsLifecycle());
        assertTrue(fault.getMessage().contains("more than 1 seconds"), fault.getMessage());
        assertTrue(System.nanoTime() - begun < 60_000_000_000L);
        long process = Long.parseLong(text(folder.resolve("program.process")).trim());
        for (int i = 0; i < 100 && ProcessHandle.of(process).map(ProcessHandle::isAlive).orElse(false); i++) {
            Thread.sleep(100);
        }
        assertFalse(ProcessHandle.of(process).map(ProcessHandle::isAlive).orElse(false));
    }

    @Test
    void anInterruptEndsTheWait() throws IOException {
        program("exec sleep 300");
        Thread.currentThread().interrupt();
        assertThrows(IllegalStateException.class, () -> RecordAssert.assertThat(record).keepsLifecycle());
        assertTrue(Thread.interrupted());
    }

    @Test
    void nothingToAskIsRefused() throws IOException {
        program("echo yes");
        RecordAssert asserting = RecordAssert.assertThat(record);
        assertThrows(IllegalArgumentException.class, asserting::hasStatistics);
        assertThrows(IllegalArgumentException.class, asserting::matchesExactly);
        assertThrows(IllegalArgumentException.class, asserting::matchesLoosely);
        assertThrows(IllegalArgumentException.class, asserting::matchesInOrder);
        assertThrows(IllegalArgumentException.class, () -> asserting.only("started").matchesInOrder());
        assertThrows(IllegalArgumentException.class, () -> asserting.on("failed(x)"));
        for (String id : new String[] {"", "engine:e", "[engine:e]/", "[engine:e]/[t:]", "[engine:e][t:1]", "[engine:e]/[t:1/2]"}) {
            assertThrows(IllegalArgumentException.class, () -> asserting.below(id));
        }
        assertFalse(Files.exists(folder.resolve("program.words")));
    }

    /** Each public method that takes a reference refuses a null in its place, or in its array, and names the parameter. */
    @Test
    void noArgumentMayBeNull() throws Exception {
        List<String> wanted = new ArrayList<>();
        List<String> said = new ArrayList<>();
        Class<?>[] types = {RecordAssert.class, RecordAssert.Conditions.class, RecordKit.class, RecordTree.class, ResultsAssert.class,
            ResultsWriter.class};
        for (Class<?> type : types) {
            for (Method method : type.getDeclaredMethods()) {
                for (int i = 0; i < (Modifier.isPublic(method.getModifiers()) ? method.getParameterCount() : 0); i++) {
                    Class<?> of = method.getParameterTypes()[i];
                    for (int items = 0; items < (of.isPrimitive() ? 0 : of.isArray() ? 2 : 1); items++) {
                        String name = method.getParameters()[i].getName() + (items == 0 ? "" : "[0]");
                        wanted.add(method.getName() + ": " + name + " must not be null");
                        said.add(method.getName() + ": " + refusal(method, i, items == 0 ? null : Array.newInstance(of.getComponentType(), 1)));
                    }
                }
            }
        }
        assertEquals(wanted, said);
        assertTrue(wanted.size() > 40, wanted.toString());
    }

    /** Calls a method with this argument, and others that are right, and returns the message of its refusal. */
    private String refusal(Method method, int place, Object argument) {
        Map<Class<?>, Object> right = new HashMap<>();
        right.put(String.class, "started");
        right.put(long.class, 1L);
        right.put(EngineExecutionResults.class, results((calls, root) -> calls.skip(root, "off")));
        Object[] arguments = Arrays.stream(method.getParameterTypes()).map(right::get).toArray();
        arguments[place] = argument;
        Object callee = method.getDeclaringClass() == RecordKit.class ? RecordKit.engine("junit-jupiter") : RecordAssert.assertThat(record);
        Throwable fault = assertThrows(InvocationTargetException.class, () -> method.invoke(callee, arguments), method.toString()).getCause();
        return fault instanceof IllegalArgumentException ? fault.getMessage() : fault.toString();
    }

    @Test
    void aMissingRecordIsRefused() {
        assertThrows(IllegalArgumentException.class, () -> RecordAssert.assertThat(folder.resolve("other.record")));
        assertThrows(IllegalArgumentException.class, () -> RecordAssert.assertThat(folder));
    }

    /** Letters outside of ASCII come as they are, or are refused where Java would change them. */
    @Test
    void lettersAreHandedOverOrRefused() throws IOException {
        program("echo yes");
        String condition = hasName("日本");
        if (Charset.defaultCharset().equals(UTF_8)) {
            RecordAssert.assertThat(record).matchesLoosely(condition);
            assertEquals(condition, words("program").get(4));
        } else {
            assertThrows(IllegalStateException.class, () -> RecordAssert.assertThat(record).matchesLoosely(condition));
            assertFalse(Files.exists(folder.resolve("program.words")));
        }
    }

    @Test
    void conditionsAreTexts() {
        assertEquals("test container engine started succeeded failed aborted", String.join(" ", isTest(), isContainer(), isEngine(),
                hasStarted(), hasSucceeded(), hasFailed(), wasAborted()));
        assertEquals("id(a) name(b) kind(skip) failed(c) aborted(d) skipped(e) file(f)", String.join(" ", hasId("a"), hasName("b"),
                hasKind("skip"), hasFailed("c"), wasAborted("d"), wasSkipped("e"), hasFile("f")));
        assertEquals("segment(a,b%29) message(c)", hasSegment("a", "b)") + " " + hasMessage("c"));
        assertEquals("entry(k,v,l,) entry()", hasEntry("k", "v", "l", "") + " " + hasEntry());
        assertEquals("all(test,not(any(id(a),failed)))", all(isTest(), not(any(hasId("a"), hasFailed()))));
        assertEquals("all() any()", all() + " " + any());
        assertEquals("name(100%25%28a%2Cb%29[]\n\uFFFD😀)", hasName("100%(a,b)[]\n\uD83D😀"));
        assertEquals("entry(a%2C,%2525)", hasEntry("a,", "%25"));
        assertThrows(IllegalArgumentException.class, () -> hasEntry("k"));
    }

    @Test
    void noNameIsOneOfJUnit() {
        for (Method method : RecordAssert.Conditions.class.getDeclaredMethods()) {
            assertFalse(NAMES_OF_JUNIT.contains(method.getName()), method.getName());
        }
    }

    private static EngineExecutionResults results(Script script) {
        ExecutionRecorder recorder = new ExecutionRecorder();
        ScriptedEngine engine = new ScriptedEngine("e", "engine", root -> root.add("t", "1", "one", Type.TEST), script);
        engine.execute(new ExecutionRequest(engine.discover(null, UniqueId.forEngine("e")), recorder, null));
        return recorder.getExecutionResults();
    }

    @Test
    void resultsAreAskedByTheirRecord() throws IOException {
        program("echo yes");
        EngineExecutionResults results = results((calls, root) -> calls.skip(root, "off"));
        Path path = ResultsAssert.assertThat(results).keepsLifecycle().matchesLoosely("x").recordPath();
        assertEquals(path, ResultsAssert.assertThat(results).recordPath());
        List<String> lines = Files.readAllLines(folder.resolve("program.input"));
        assertEquals(Arrays.asList("testkit-record|3", "N|C|[engine:e]|engine", "N|T|[engine:e]/[t:1]|one"), lines.subList(0, 3));
        assertTrue(lines.get(3).matches("E[|]1[|]0[|][0-9]{16}[|]skip[|]off"), lines.get(3));
        assertEquals(Arrays.asList("Z|1"), lines.subList(4, lines.size()));
    }

    /** An engine's code, which runs while results are recorded, may wait for another thread that asserts something about others. */
    @Test
    void resultsAreRecordedWithoutALock() throws IOException {
        program("echo yes");
        EngineExecutionResults others = results((calls, root) -> calls.skip(root, "off"));
        Thread other = new Thread(() -> ResultsAssert.assertThat(others));
        RuntimeException waiting = new IllegalStateException() {

            private static final long serialVersionUID = 1;

            @Override
            public String getMessage() {
                other.start();
                try {
                    other.join(5_000);
                } catch (InterruptedException fault) {
                    throw new IllegalStateException(fault);
                }
                return "waits " + other.isAlive();
            }
        };
        Path path = ResultsAssert.assertThat(results((calls, root) -> calls.fail(root, waiting))).recordPath();
        assertTrue(text(path).endsWith("|finish|fail|waits false\nZ|1\n"), text(path));
    }

    /** (The records of results that are not refused go when the process ends, which {@code test_assert.py} sees.) */
    @Test
    void theRecordOfRefusedResultsStays() throws IOException {
        program("[ \"$3\" = lifecycle ] && echo yes && exit 0", "echo no 0", "exit 1");
        RecordAssert asserting = ResultsAssert.assertThat(results((calls, root) -> calls.skip(root, "refused")));
        AssertionError fault = assertThrows(AssertionError.class, () -> asserting.keepsLifecycle().matchesLoosely("x"));
        Path kept = Paths.get(fault.getMessage().split("\n")[0].split(" < ")[1]);
        assertTrue(text(kept).contains("|skip|refused\n"));
    }

    @Test
    void anIdThatNobodyRegisteredBreaksTheLifecycle() throws IOException {
        program("echo yes");
        RecordAssert asserting = ResultsAssert.assertThat(results((calls, root) -> {
            calls.start(root);
            calls.play(new ScriptedEngine.Node(root.getUniqueId().append("d", "1"), "one", Type.TEST));
            calls.play(new ScriptedEngine.Node(root.getUniqueId().append("d", "2"), "two", Type.TEST));
            calls.succeed(root);
        }));
        AssertionError fault = assertThrows(AssertionError.class, asserting::keepsLifecycle);
        assertTrue(fault.getMessage().contains("[engine:e]/[d:1], [engine:e]/[d:2]"), fault.getMessage());
        asserting.matchesLoosely("x");
    }

    @Test
    void resultsWhoseRecordIsNotWholeAreRefused() {
        EngineExecutionResults tooLong = results((calls, root) -> {
            for (int i = 0; i < 300; i++) {
                calls.report(root, "k", String.join("", Collections.nCopies(60_000, "x")));
            }
        });
        useTheProgram();
        AssertionError fault = assertThrows(AssertionFailedError.class, () -> ResultsAssert.assertThat(tooLong).hasCount(0, isContainer()));
        assertTrue(fault.getMessage().matches("(?s).*record is cut off after line [0-9]+; what stands before: .* recover < .*"), fault.getMessage());
    }

    /** Asks the program itself, at a yes and at a no of each method. */
    @Test
    void theProgramAnswers() throws IOException {
        useTheProgram();
        RecordAssert asserting = RecordAssert.assertThat(record).keepsLifecycle().hasStatistics("failed=1", "started=3")
                .matchesLoosely(all(isTest(), hasFailed("boom")), hasSucceeded()).matchesInOrder(hasFailed(), all(hasName("two"), hasSucceeded()))
                .matchesExactly(isEngine(), hasId("t:1"), hasSegment("t", "2"), hasMessage("oo"), hasSucceeded(), isContainer());
        asserting.tests().hasStatistics("started=2").matchesExactly(isTest(), isTest(), hasFailed(), hasSucceeded()).hasCount(1, hasMessage("b"));
        assertEquals(Arrays.asList("3 E|1|1|0|finish|fail|boom   [engine:e]/[t:1] \"one\""), asserting.list(hasFailed()));
        Path broken = Files.write(folder.resolve("broken.record"), BROKEN.getBytes(UTF_8));
        assertRefused("no end 0\n[engine:e] \"e\" started at 0 and never finished", () -> RecordAssert.assertThat(broken).keepsLifecycle());
        Path forgotten = Files.write(folder.resolve("forgotten.record"), FORGOTTEN.getBytes(UTF_8));
        assertRefused("no start 1", () -> RecordAssert.assertThat(forgotten).keepsLifecycle());
        assertRefused("mismatch failed expected 2 actual 1", () -> asserting.hasStatistics("failed=2"));
        assertRefused("mismatch started expected 3 actual 1", () -> asserting.containers().hasStatistics("started=3"));
        assertRefused("wrong-count\n1 conditions, 4 events", () -> asserting.tests().matchesExactly(isTest()));
        assertRefused("no 1\n1 aborted", () -> asserting.matchesLoosely(isTest(), wasAborted()));
        assertRefused("no 1\n0 succeeded", () -> asserting.matchesInOrder(hasSucceeded(), hasFailed()));
        Path apart = Files.write(folder.resolve("apart.record"), APART.getBytes(UTF_8));
        RecordAssert.assertThat(apart).exclusive(isTest()).exclusive(hasName("one"), hasName("two"));
        assertRefused("no pair\n0 name(one)", () -> asserting.exclusive(hasName("one")));
        assertRefused("no 1 2", () -> asserting.exclusive(isTest()));
        assertRefused("no 1 2", () -> asserting.exclusive(hasName("two"), hasName("one")));
        assertRefused("2 aborted", () -> asserting.matchesLoosely(hasName("three"), isTest(), wasAborted()));
        assertRefused("no 2\n0 all(test,started)", () -> asserting.hasCount(3, all(isTest(), hasStarted())));
        RuntimeException fault = assertThrows(IllegalArgumentException.class, () -> asserting.matchesLoosely("test", "tests"));
        assertTrue(fault.getMessage().endsWith(" is refused: condition 1 is bad at 4"), fault.getMessage());
        Path none = Files.write(folder.resolve("none.record"), new byte[0]);
        assertThrows(IllegalArgumentException.class, () -> RecordAssert.assertThat(none).keepsLifecycle());
    }

    /** Asks the program itself about events of which a condition holds. */
    @Test
    void theProgramAnswersAboutSomeEvents() throws IOException {
        useTheProgram();
        RecordAssert tests = RecordAssert.assertThat(record).only(isTest()).hasStatistics("started=2", "failed=1", "finished=2", "skipped=0")
                .matchesExactly(hasStarted(), hasStarted(), hasFailed("boom"), hasSucceeded()).matchesInOrder(hasFailed(), hasSucceeded())
                .matchesLoosely(hasSucceeded()).hasCount(2, hasStarted());
        assertEquals(Arrays.asList("3 E|1|1|0|finish|fail|boom   [engine:e]/[t:1] \"one\""), tests.on("failed").list());
        assertEquals(Collections.emptyList(), tests.on("failed").only(hasName("two")).list());
        assertEquals(1, tests.only(hasName("e")).list(hasStarted()).size());
        tests.containers().hasStatistics("started=0").hasCount(0, all());
        AssertionFailedError fault = assertThrows(AssertionFailedError.class, () -> tests.hasStatistics("started=2", "finished=3"));
        assertEquals("started=2, finished=3 started=2, finished=2", fault.getExpected().getValue() + " " + fault.getActual().getValue());
        assertThrows(IllegalArgumentException.class, () -> tests.hasStatistics("started=02"));
        assertThrows(AssertionFailedError.class, () -> tests.matchesExactly(hasStarted(), hasFailed(), hasSucceeded()));
        assertThrows(AssertionFailedError.class, () -> tests.matchesExactly(hasStarted(), hasFailed(), hasSucceeded(), hasSucceeded()));
        assertRefused("no 0\n0 all(test,container)", () -> tests.matchesLoosely(isContainer()));
        assertRefused("no 0\n0 all(test,container)", () -> tests.matchesInOrder(isContainer()));
    }

    /** An id with all below it: not one that only begins so, and none within another id. */
    @Test
    void theProgramKnowsWhatIsBelowAnId() throws IOException {
        useTheProgram();
        RecordAssert nested = RecordAssert.assertThat(Files.write(folder.resolve("nested.record"), NESTED.getBytes(UTF_8)));
        String[][] cases = {{"[engine:e]", "3 4 5"}, {"[engine:e]/[t:1]", "4"}, {"[engine:s]/[engine:e]", "1 2"},
            {"[engine:|]/[engine:|]", "7"}};
        for (String[] it : cases) {
            assertEquals(it[1], nested.below(it[0]).list().stream().map(line -> line.split(" ")[0]).collect(Collectors.joining(" ")), it[0]);
        }
        assertEquals(1, nested.below("[engine:s]").only(isTest()).below("[engine:e]").hasCount(2, all()).on("skipped").list().size());
        nested.below("[engine:e]").only(isTest()).hasCount(2, all());
        AssertionError none = assertThrows(AssertionFailedError.class, () -> nested.below("[engine:e]/[t:2]"));
        assertTrue(none.getMessage().startsWith("no event is of [engine:e]/[t:2], or of an id below it: "), none.getMessage());
        RuntimeException fault = assertThrows(IllegalStateException.class, () -> nested.below("[engine:|]"));
        assertTrue(fault.getMessage().startsWith("[engine:|] stands twice in an id: 7 E|"), fault.getMessage());
    }

    /** Two executions that overlap, of which one meets the first condition; where none does, or there are no two, the assertion fails. */
    @Test
    void theProgramKnowsWhatOverlaps() throws IOException {
        useTheProgram();
        RecordAssert asserting = RecordAssert.assertThat(record).overlap(hasName("one"), hasName("two")).overlap(isContainer(), hasName("two"))
                .overlap(isTest(), "any()");
        assertRefused("no pair\n0 name(one)", () -> asserting.overlap(hasName("one"), hasName("one")));
        assertRefused("no pair\n0 name(three)", () -> asserting.overlap(hasName("three"), isTest()));
        RecordAssert apart = RecordAssert.assertThat(Files.write(folder.resolve("apart.record"), APART.getBytes(UTF_8)));
        AssertionError fault = assertThrows(AssertionFailedError.class, () -> apart.describedAs("run 1").overlap(isTest(), isTest()));
        assertTrue(fault.getMessage().startsWith("[run 1] nothing overlaps: ") && fault.getMessage().endsWith("\nyes\n"), fault.getMessage());
        for (String line : new String[] {"echo no", "echo no 1 2", "exit 1", "echo yes; exit 1", "echo no pair"}) {
            program(line);
            assertThrows(IllegalStateException.class, () -> asserting.overlap("a", "b"), line);
        }
    }

    @Test
    void theProgramKnowsWhatExecutionsTake() throws IOException {
        useTheProgram();
        RecordAssert asserting = RecordAssert.assertThat(Files.write(folder.resolve("times.record"), TIMES.getBytes(UTF_8)))
                .takes(isTest(), 1, 21).takes(hasName("one"), 20, 21).takes(all(), 0, 99);
        assertRefusedAtOnce("1 of 2 executions of test don't take 2 to below 21", () -> asserting.takes(isTest(), 2, 21));
        assertRefusedAtOnce("1 of 2 executions of test don't take 1 to below 20", () -> asserting.takes(isTest(), 1, 20));
        assertRefusedAtOnce("0 of 0 executions of name(off) don't take 0 to below 9", () -> asserting.takes(hasName("off"), 0, 9));
        assertRefusedAtOnce("0 of 0 executions of engine don't take 0 to below 9", () -> asserting.takes(isEngine(), 0, 9));
        Path most = Files.write(folder.resolve("most.record"), TIMES.replace("|30|", "|18446744073709551615|").getBytes(UTF_8));
        assertRefusedAtOnce("1 of 1 executions of name(one) don't take 0 to below 9223372036854775807",
                () -> RecordAssert.assertThat(most).takes(hasName("one"), 0, Long.MAX_VALUE));
    }

    /** Asks the program itself about two locks that are held one after the other, about two that are held at once, and about none. */
    @Test
    void theProgramJudgesLocks() throws IOException {
        useTheProgram();
        RecordAssert.assertThat(withLocks(APART)).keepsLocks();
        assertRefused("no 1 2 a\\pb", () -> RecordAssert.assertThat(withLocks(TWO_TESTS)).keepsLocks());
        assertRefused("no pair\n0 executions hold a lock", () -> RecordAssert.assertThat(record).keepsLocks());
    }

    /** Writes a record, of whose tests one reads a lock and the other one writes it. */
    private Path withLocks(String text) {
        try {
            String locks = text.replace("record|2", "record|3").replaceFirst("\nE", "\nL|1|R|a\\\\pb\nL|2|W|a\\\\pb\nE");
            locks += "Z|" + (locks.split("\nE").length - 1) + "\n";
            return Files.write(folder.resolve("locks.record"), locks.getBytes(UTF_8));
        } catch (IOException fault) {
            throw new UncheckedIOException(fault);
        }
    }

    private static void useTheProgram() {
        String program = System.getProperty("testkit.real", "");
        assumeTrue(!program.isEmpty(), "no program");
        System.setProperty("testkit.program", program);
    }

    private static void assertRefused(String answer, Runnable asserting) {
        AssertionError fault = assertThrows(AssertionError.class, asserting::run);
        assertTrue(fault.getMessage().contains("\n" + answer + "\n"), fault.getMessage());
    }

    private static void assertRefusedAtOnce(String begin, Runnable asserting) {
        AssertionError fault = assertThrows(AssertionFailedError.class, asserting::run);
        assertTrue(fault.getMessage().startsWith(begin + ":"), fault.getMessage());
    }
}
