package testkit;

import java.io.IOException;
import java.io.InputStream;
import java.math.BigInteger;
import java.nio.file.Files;
import java.nio.file.Path;
import java.security.MessageDigest;
import java.security.NoSuchAlgorithmException;
import java.util.Scanner;

/** The program that the jar has, for Linux on x86-64. */
final class RecordProgram {

    private static final String NAME = "testkit-x86_64-linux";

    private static Path taken;

    private RecordProgram() {
    }

    /**
     * Returns the path of the program, or null where there is none for this machine. At the first call it is taken out of the jar, into a
     * new folder that only this user may enter, and goes with it when the process ends.
     *
     * @throws IOException where it can't be written, or what was written isn't what the jar's sum says
     */
    static synchronized Path path() throws IOException {
        boolean isForHere = System.getProperty("os.name", "").equals("Linux") && System.getProperty("os.arch", "").equals("amd64");
        if (!isForHere || RecordProgram.class.getResource(NAME) == null) {
            return null;
        }
        if (taken == null || !Files.exists(taken)) {
            taken = takenOut();
        }
        return taken;
    }

    private static Path takenOut() throws IOException {
        Path folder = Files.createTempDirectory("testkit-");
        Path program = folder.resolve("testkit");
        Runtime.getRuntime().addShutdownHook(new Thread(() -> {
            program.toFile().delete();
            folder.toFile().delete();
        }));
        try (InputStream data = RecordProgram.class.getResourceAsStream(NAME);
                InputStream sum = RecordProgram.class.getResourceAsStream(NAME + ".sha256");
                Scanner wanted = new Scanner(sum, "UTF-8")) {
            Files.copy(data, program);
            if (!sum(program).equals(wanted.next())) {
                throw new IOException(program + " isn't what the jar has, by its sum");
            }
        }
        if (!program.toFile().setExecutable(true, true)) {
            throw new IOException(program + " can't be made executable");
        }
        return program;
    }

    private static String sum(Path file) throws IOException {
        try {
            byte[] sum = MessageDigest.getInstance("SHA-256").digest(Files.readAllBytes(file));
            return String.format("%064x", new BigInteger(1, sum));
        } catch (NoSuchAlgorithmException fault) {
            throw new IOException(fault);
        }
    }
}
