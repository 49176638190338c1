package testkit;

import java.util.HashMap;
import java.util.Map;
import java.util.function.Consumer;

import org.junit.platform.engine.UniqueId;

/** The workers of a record, each of which stands for the threads that have it one after another. */
final class RecordWorkers {

    static final int MOST = 15;

    /** As what a thread writes: its worker, and how many executions run that it began. */
    private static final class Seat {

        private final int worker;
        private int running;

        Seat(int worker) {
            this.worker = worker;
        }
    }

    private final ThreadLocal<Seat> seats = new ThreadLocal<>();
    /** The seats from which the executions that run were begun, and how many executions run at each worker. */
    private final Map<UniqueId, Seat> begun = new HashMap<>();
    private final int[] running = new int[MOST + 1];
    private final Consumer<String> notes;
    private boolean isCrowded;

    /** Makes the workers of a run; {@code notes} takes what is to be said. */
    RecordWorkers(Consumer<String> notes) {
        this.notes = notes;
    }

    /** Returns this thread's worker. */
    int worker() {
        return seat().worker;
    }

    /**
     * Returns this thread's seat. A thread that has none gets the worker at which the fewest executions run, the first of these. So does
     * one that runs nothing, where another thread's execution runs at its worker.
     */
    private Seat seat() {
        Seat seat = seats.get();
        if (seat != null && (seat.running > 0 || running[seat.worker] == 0)) {
            return seat;
        }
        int worker = 1;
        for (int other = 2; other <= MOST; other++) {
            worker = running[other] < running[worker] ? other : worker;
        }
        if (running[worker] > 0 && !isCrowded) {
            isCrowded = true;
            notes.accept("more than " + MOST + " threads run at once, and share the workers 1 to " + MOST);
        }
        seats.set(new Seat(worker));
        return seats.get();
    }

    /** Counts an execution that starts on this thread. One of this id that runs already ends. */
    void start(UniqueId id) {
        finish(id);
        Seat seat = seat();
        begun.put(id, seat);
        seat.running++;
        running[seat.worker]++;
    }

    /** Counts an execution that ends, whichever thread reports it. */
    void finish(UniqueId id) {
        Seat ended = begun.remove(id);
        if (ended != null) {
            ended.running--;
            running[ended.worker]--;
        }
    }
}
