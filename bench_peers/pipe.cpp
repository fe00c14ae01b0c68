/* A pipe of the system, as between two processes: pipe(2).
 *
 * pipe [CASE..]
 *
 * A send is a call of write, and a receive a call of read, which sleeps until a message has come. The pipe holds 1 MiB where the
 * system allows it, so there are no cases append and read_into: a sender waits for the receiver.
 *
 * It promises that each message is received once, in the order of the writes, also by another process: one of at most 4,096
 * bytes is written as a whole. A message is gone once it was received.
 */
#include "between.hpp"
#include <cerrno>
#include <fcntl.h>
#include <unistd.h>

template <size_t N> class Pipe {
    int ends[2];

    static void give_up(const char *call) {
        std::fprintf(stderr, "%s: %s\n", call, std::strerror(errno));
        std::exit(1);
    }

  public:
    static constexpr bool holds_all = false;

    explicit Pipe(size_t) {
        if (pipe(ends) != 0) give_up("pipe");
        /* Where the system refuses that many, the pipe holds what it is made with. */
        (void)fcntl(ends[1], F_SETPIPE_SZ, 1 << 20);
    }

    ~Pipe() {
        close(ends[0]);
        close(ends[1]);
    }

    Pipe(const Pipe &) = delete;
    Pipe &operator=(const Pipe &) = delete;

    struct Sender {
        Pipe &queue;

        explicit Sender(Pipe &queue) : queue(queue) {}

        void send(const between::Message<N> &message) {
            if (write(queue.ends[1], message.bytes, N) != static_cast<ssize_t>(N)) give_up("write");
        }
    };

    struct Receiver {
        Pipe &queue;

        explicit Receiver(Pipe &queue) : queue(queue) {}

        bool receive(between::Message<N> &message) {
            if (read(queue.ends[0], message.bytes, N) != static_cast<ssize_t>(N)) give_up("read");
            return true;
        }
    };
};

int main(int count, char **words) {
    return between::run<Pipe>("pipe", count, words);
}
