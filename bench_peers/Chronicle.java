import java.io.File;
import java.io.IOException;
import java.io.UncheckedIOException;
import java.nio.file.Files;
import java.nio.file.Path;
import java.util.Comparator;
import java.util.List;
import java.util.stream.Stream;
import net.openhft.chronicle.ChronicleQueueBuilder;
import net.openhft.chronicle.ExcerptAppender;
import net.openhft.chronicle.ExcerptTailer;

/**
 * Chronicle Queue, version 3.6: https://github.com/OpenHFT/Chronicle-Queue
 *
 * <p>Chronicle [CASE..]
 *
 * <p>One sender appends to an IndexedChronicle, which may have one, and several to a VanillaChronicle, in which each has a file of
 * its own. The files are mapped into memory, in a new folder of /dev/shm where there is one, so that no disk takes part. The version
 * with one file for all senders, whose headers the queue has too, is in Debian as an alpha alone.
 *
 * <p>It promises that each receiver gets each message, in one order for all, also in another process, and that messages stay until
 * their files are deleted. Nothing is synced, as by default.
 */
final class Chronicle {
    private static final Path MEMORY = Path.of("/dev/shm");

    private static final class Journal implements Between.Queue {
        private final Path folder;
        private final net.openhft.chronicle.Chronicle chronicle;
        private final ThreadLocal<ExcerptAppender> appender;

        Journal(int bytes, int most, boolean isShared) {
            try {
                folder = Files.isDirectory(MEMORY) ? Files.createTempDirectory(MEMORY, "peer-") : Files.createTempDirectory("peer-");
                File files = folder.resolve("queue").toFile();
                chronicle = isShared ? ChronicleQueueBuilder.vanilla(files).build() : ChronicleQueueBuilder.indexed(files).build();
            } catch (IOException fault) {
                throw new UncheckedIOException(fault);
            }
            appender = ThreadLocal.withInitial(this::newAppender);
        }

        private ExcerptAppender newAppender() {
            try {
                return chronicle.createAppender();
            } catch (IOException fault) {
                throw new UncheckedIOException(fault);
            }
        }

        @Override
        public void send(byte[] message) {
            ExcerptAppender excerpt = appender.get();
            excerpt.startExcerpt(message.length);
            excerpt.write(message);
            excerpt.finish();
        }

        @Override
        public Between.Receiver receiver() {
            return new Reader(chronicle);
        }

        @Override
        public void close() throws IOException {
            chronicle.close();
            List<Path> all;
            try (Stream<Path> paths = Files.walk(folder)) {
                all = paths.sorted(Comparator.reverseOrder()).toList();
            }
            for (Path path : all) Files.delete(path);
        }
    }

    /** A tailer, which the thread that reads first makes: a thread has one of its own. */
    private static final class Reader implements Between.Receiver {
        private final net.openhft.chronicle.Chronicle chronicle;
        private ExcerptTailer tailer;

        Reader(net.openhft.chronicle.Chronicle chronicle) {
            this.chronicle = chronicle;
        }

        @Override
        public int receive(byte[] into, int most) throws IOException {
            if (tailer == null) tailer = chronicle.createTailer();
            int came = 0;
            while (came < most && tailer.nextIndex()) {
                tailer.readFully(into);
                tailer.finish();
                came++;
            }
            return came;
        }
    }

    public static void main(String[] words) throws Exception {
        Between.run("chronicle", Journal::new, words);
    }
}
