import java.util.ArrayList;
import java.util.Arrays;
import java.util.List;
import java.util.concurrent.Callable;
import java.util.concurrent.ExecutorService;
import java.util.concurrent.Executors;
import java.util.concurrent.Future;
import java.util.concurrent.atomic.AtomicInteger;

/** What the Java peers between threads have in common: the cases, the threads and the clock, as in between.hpp. */
final class Between {
    /** A queue between threads. */
    interface Queue extends AutoCloseable {
        /** Sends a message. */
        void send(byte[] message);

        /** What a thread receives by. Each gets each message that is sent from now on. */
        Receiver receiver();

        /** Lets go of what it holds besides memory. Nothing is sent or received any more. */
        @Override
        default void close() throws Exception {}
    }

    /** What a thread receives by. */
    interface Receiver {
        /** Copies the next messages that have come into these bytes, at most this many, one after the other. Returns how many. */
        int receive(byte[] into, int most) throws Exception;
    }

    /** Makes queues. */
    interface Maker {
        /** Makes a queue for this many messages of this size, by one sender or by several. */
        Queue make(int bytes, int most, boolean isShared);
    }

    /** What a thread does. */
    private interface Job {
        void run() throws Exception;
    }

    private static final int PINGS = 10_000;

    /** Repetitions before those that count, in which the virtual machine compiles what is used. */
    private static final int WARM = 10;

    /** What was received goes here, so that no copy of it is left out. */
    private static volatile byte kept;

    private final String peer;
    private final Maker maker;

    private Between(String peer, Maker maker) {
        this.peer = peer;
        this.maker = maker;
    }

    private static int repetitions() {
        String given = System.getenv("REPS");
        return given == null ? 3 : Math.max(1, Integer.parseInt(given));
    }

    /** How many messages of this size a cycle of 4 MiB holds, each after a header of 4 bytes. */
    private static int messagesOf(int bytes) {
        return (4 << 20) / (4 + bytes);
    }

    private static byte[] message(int bytes) {
        byte[] message = new byte[bytes];
        Arrays.fill(message, (byte) 'x');
        return message;
    }

    private static void sendAll(Queue queue, byte[] message, int count) {
        for (int i = 0; i < count; i++) queue.send(message);
    }

    private static void receiveAll(Receiver receiver, byte[] into, int count) throws Exception {
        byte seen = 0;
        for (int left = count; left > 0; ) {
            int came = receiver.receive(into, left);
            if (came == 0) Thread.onSpinWait();
            seen ^= into[0];
            left -= came;
        }
        kept = seen;
    }

    /** Runs each on a thread, once all have come. Returns the nanoseconds from the first start to the last end. */
    private static long nanosOf(List<Job> jobs) throws Exception {
        AtomicInteger come = new AtomicInteger();
        ExecutorService threads = Executors.newFixedThreadPool(jobs.size());
        List<Future<long[]>> spans = new ArrayList<>();
        for (Job job : jobs) {
            Callable<long[]> timed = () -> {
                come.incrementAndGet();
                while (come.get() < jobs.size()) Thread.onSpinWait();
                long start = System.nanoTime();
                job.run();
                return new long[] {start, System.nanoTime()};
            };
            spans.add(threads.submit(timed));
        }
        long first = Long.MAX_VALUE;
        long last = Long.MIN_VALUE;
        for (Future<long[]> span : spans) {
            first = Math.min(first, span.get()[0]);
            last = Math.max(last, span.get()[1]);
        }
        threads.shutdown();
        return last - first;
    }

    private long turn(int bytes, int senders, int receivers) throws Exception {
        int each = messagesOf(bytes) / Math.max(1, senders);
        int all = each * Math.max(1, senders);
        byte[] message = message(bytes);
        try (Queue queue = maker.make(bytes, all, senders > 1)) {
            List<Job> jobs = new ArrayList<>();
            for (int i = 0; i < receivers; i++) {
                Receiver receiver = queue.receiver();
                jobs.add(() -> receiveAll(receiver, new byte[bytes], all));
            }
            if (senders == 0) sendAll(queue, message, all);
            for (int i = 0; i < senders; i++) jobs.add(() -> sendAll(queue, message, each));
            return nanosOf(jobs);
        }
    }

    private void printLine(String name, int bytes, String threads, double value, String unit) {
        System.out.printf(
                "{\"impl\":\"%s\",\"case\":\"%s\",\"payload\":%d,\"threads\":\"%s\",\"value\":%.2f,\"unit\":\"%s\"}%n",
                peer, name, bytes, threads, value, unit);
    }

    private void rate(String name, int bytes, int senders, int receivers) throws Exception {
        long best = Long.MAX_VALUE;
        for (int i = -WARM; i < repetitions(); i++) {
            long nanos = turn(bytes, senders, receivers);
            if (i >= 0) best = Math.min(best, nanos);
        }
        boolean isFlow = senders > 0 && receivers > 0;
        String threads = isFlow ? senders + "to" + receivers : String.valueOf(senders + receivers);
        double messages = (double) messagesOf(bytes) / Math.max(1, senders) * Math.max(1, senders);
        printLine(name, bytes, threads, messages * 1e9 / best, "msg/s");
    }

    /** How long each message was on its way, in nanoseconds. Each is sent once the one before it was received. */
    private long[] pingTimes(int bytes) throws Exception {
        long[] sent = new long[PINGS];
        long[] came = new long[PINGS];
        try (Queue queue = maker.make(bytes, PINGS, false)) {
            Receiver receiver = queue.receiver();
            AtomicInteger received = new AtomicInteger();
            byte[] message = message(bytes);
            Job send = () -> {
                for (int i = 0; i < PINGS; i++) {
                    while (received.get() < i) Thread.onSpinWait();
                    sent[i] = System.nanoTime();
                    queue.send(message);
                }
            };
            Job receive = () -> {
                byte[] into = new byte[bytes];
                for (int i = 0; i < PINGS; i++) {
                    receiveAll(receiver, into, 1);
                    came[i] = System.nanoTime();
                    received.incrementAndGet();
                }
            };
            nanosOf(List.of(send, receive));
        }
        long[] times = new long[PINGS];
        for (int i = 0; i < PINGS; i++) times[i] = came[i] - sent[i];
        Arrays.sort(times);
        return times;
    }

    private void ping(int bytes) throws Exception {
        long half = Long.MAX_VALUE;
        long most = Long.MAX_VALUE;
        for (int i = -WARM; i < repetitions(); i++) {
            long[] times = pingTimes(bytes);
            if (i < 0) continue;
            half = Math.min(half, times[times.length / 2]);
            most = Math.min(most, times[(times.length - 1) / 100 * 99]);
        }
        printLine("ping_p50", bytes, "1to1", half, "ns");
        printLine("ping_p99", bytes, "1to1", most, "ns");
    }

    /** Measures a case. Returns whether there is one of that name. */
    private boolean measure(String name) throws Exception {
        switch (name) {
            case "append":
                for (int threads : new int[] {1, 2, 4}) {
                    for (int bytes : new int[] {8, 64, 256}) rate(name, bytes, threads, 0);
                }
                return true;
            case "read_into":
                for (int bytes : new int[] {8, 64, 256}) rate(name, bytes, 0, 1);
                return true;
            case "flow":
                for (int[] crew : new int[][] {{1, 1}, {1, 3}, {3, 1}}) {
                    for (int bytes : new int[] {64, 1024}) rate(name, bytes, crew[0], crew[1]);
                }
                return true;
            case "ping":
                ping(64);
                return true;
            default:
                return false;
        }
    }

    /** Measures the cases that the arguments name, or all of them, and ends the program. */
    static void run(String peer, Maker maker, String[] words) throws Exception {
        Between between = new Between(peer, maker);
        String[] names = words.length > 0 ? words : new String[] {"append", "read_into", "flow", "ping"};
        for (String name : names) {
            if (between.measure(name)) continue;
            System.err.println(peer + ": there is no case " + name);
            System.exit(2);
        }
        System.exit(0);
    }
}
