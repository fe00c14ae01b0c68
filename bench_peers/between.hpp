/* What the C++ peers between threads have in common: the cases, the threads and the clock.
 *
 * PEER [CASE..]
 *
 * The cases are those of cq_bench, with as many messages as a cycle of 4 MiB holds. A peer is a template over the bytes of a
 * message, since a message is a value of a fixed size: nothing is allocated for it. Each repetition has new queues, through
 * which as many messages went before, so that their memory is mapped. The best of REPS repetitions counts, 3 if none are
 * given.
 *
 *  append     1, 2 and 4 threads send, and nobody receives
 *  read_into  1 thread receives what was sent before
 *  flow       1 to 1, 1 to 3, 3 to 1. Each receiver gets each message: it has a queue of its own, into which each sender sends
 *  ping       each message is sent once the one before it was received: how long half of them take at most, and 99 of 100
 */
#ifndef BETWEEN_HPP
#define BETWEEN_HPP
#include <algorithm>
#include <atomic>
#include <chrono>
#include <cstddef>
#include <cstdint>
#include <cstdio>
#include <cstdlib>
#include <cstring>
#include <functional>
#include <memory>
#include <string>
#include <thread>
#include <utility>
#include <vector>

namespace between {

using Clock = std::chrono::steady_clock;

template <size_t N> struct Message {
    unsigned char bytes[N];
};

/* From when to when a thread was at work. */
struct Span {
    Clock::time_point start, end;
};

/* How often a case is measured. */
inline unsigned repetitions() {
    const char *given = std::getenv("REPS");
    return given ? static_cast<unsigned>(std::max(1, std::atoi(given))) : 3;
}

/* How many messages of this size a cycle of 4 MiB holds, each after a header of 4 bytes. */
inline size_t messages_of(size_t bytes) {
    return (size_t{4} << 20) / (4 + bytes);
}

/* How many messages a ping sends. */
constexpr size_t pings = 10000;

inline void pause() {
    __builtin_ia32_pause();
}

/* Keeps what was received, so that no copy of it is left out. */
template <size_t N> void keep(const Message<N> &message) {
    asm volatile("" : : "r"(message.bytes) : "memory");
}

/* Runs these on a thread each, once all have come. Returns the seconds from the first start to the last end. */
template <class Job> double seconds_of(std::vector<Job> &jobs) {
    std::atomic<size_t> come{0};
    std::vector<Span> spans(jobs.size());
    std::vector<std::thread> threads;
    for (size_t i = 0; i < jobs.size(); i++) {
        threads.emplace_back([&, i] {
            come++;
            while (come < jobs.size()) pause();
            spans[i].start = Clock::now();
            jobs[i]();
            spans[i].end = Clock::now();
        });
    }
    for (auto &thread : threads) thread.join();
    auto first = spans[0].start, last = spans[0].end;
    for (const auto &span : spans) first = std::min(first, span.start), last = std::max(last, span.end);
    return std::chrono::duration<double>(last - first).count();
}

inline void print_line(const char *peer, const char *name, size_t bytes, const std::string &threads, double value, const char *unit) {
    std::printf("{\"impl\":\"%s\",\"case\":\"%s\",\"payload\":%zu,\"threads\":\"%s\",\"value\":%.2f,\"unit\":\"%s\"}\n", peer, name, bytes,
                threads.c_str(), value, unit);
    std::fflush(stdout);
}

/* Measures a peer with messages of N bytes. Peer<N> is a queue with:
 *
 *  Peer(size_t most)         room for this many messages
 *  holds_all                 whether it has that: otherwise there are no cases append and read_into
 *  Sender, Receiver          what a thread sends and receives by, made of the queue
 *  sender.send(message)      waits where there is no room
 *  receiver.receive(message) returns whether a message has come, or waits until one has
 */
template <template <size_t> class Peer, size_t N> class Measured {
    using Queue = Peer<N>;
    using Queues = std::vector<std::unique_ptr<Queue>>;

    static Queues queues(size_t count, size_t most) {
        Queues made;
        for (size_t i = 0; i < count; i++) made.push_back(std::make_unique<Queue>(most));
        if (Queue::holds_all) {
            send_all(made, most);
            for (auto &queue : made) receive_all(*queue, most);
        }
        return made;
    }

    static void send_all(Queues &queues, size_t count) {
        std::vector<typename Queue::Sender> senders;
        for (auto &queue : queues) senders.emplace_back(*queue);
        Message<N> message;
        std::memset(message.bytes, 'x', N);
        for (size_t i = 0; i < count; i++) {
            for (auto &sender : senders) sender.send(message);
        }
    }

    static void receive_all(Queue &queue, size_t count) {
        typename Queue::Receiver receiver(queue);
        Message<N> message;
        for (size_t i = 0; i < count; i++) {
            while (!receiver.receive(message)) pause();
            keep(message);
        }
    }

    /* The seconds of these threads with a new queue for each receiver, or with one. */
    static double turn(size_t senders, size_t receivers, size_t each) {
        size_t all = each * std::max<size_t>(senders, 1);
        Queues made = queues(std::max<size_t>(receivers, 1), all);
        if (senders == 0) send_all(made, all);
        std::vector<std::function<void()>> jobs;
        for (size_t i = 0; i < senders; i++) jobs.push_back([&] { send_all(made, each); });
        for (size_t i = 0; i < receivers; i++) jobs.push_back([&, i] { receive_all(*made[i], all); });
        return seconds_of(jobs);
    }

    static std::string name_of(size_t senders, size_t receivers) {
        if (senders == 0 || receivers == 0) return std::to_string(senders + receivers);
        return std::to_string(senders) + "to" + std::to_string(receivers);
    }

  public:
    static void rate(const char *peer, const char *name, size_t senders, size_t receivers) {
        size_t each = messages_of(N) / std::max<size_t>(senders, 1);
        double best = 1e9;
        for (unsigned i = 0; i < repetitions(); i++) best = std::min(best, turn(senders, receivers, each));
        double messages = static_cast<double>(each * std::max<size_t>(senders, 1));
        print_line(peer, name, N, name_of(senders, receivers), messages / best, "msg/s");
    }

    static void ping(const char *peer) {
        double half = 1e18, most = 1e18;
        for (unsigned i = 0; i < repetitions(); i++) {
            auto times = ping_times();
            std::sort(times.begin(), times.end());
            half = std::min(half, times[times.size() / 2]);
            most = std::min(most, times[(times.size() - 1) / 100 * 99]);
        }
        print_line(peer, "ping_p50", N, "1to1", half, "ns");
        print_line(peer, "ping_p99", N, "1to1", most, "ns");
    }

  private:
    /* How long each message was on its way, in nanoseconds. */
    static std::vector<double> ping_times() {
        Queue queue(pings);
        std::atomic<size_t> received{0};
        std::vector<Clock::time_point> sent(pings), came(pings);
        std::thread reader([&] {
            typename Queue::Receiver receiver(queue);
            Message<N> message;
            received++;
            for (size_t i = 0; i < pings; i++) {
                while (!receiver.receive(message)) pause();
                keep(message);
                came[i] = Clock::now();
                received++;
            }
        });
        typename Queue::Sender sender(queue);
        Message<N> message;
        std::memset(message.bytes, 'x', N);
        for (size_t i = 0; i < pings; i++) {
            while (received < i + 1) pause();
            sent[i] = Clock::now();
            sender.send(message);
        }
        reader.join();
        std::vector<double> times;
        for (size_t i = 0; i < pings; i++) times.push_back(std::chrono::duration<double, std::nano>(came[i] - sent[i]).count());
        return times;
    }
};

/* Measures a case. Returns whether there is one of that name. */
template <template <size_t> class Peer> bool measure(const char *peer, const std::string &name) {
    constexpr bool holds_all = Peer<8>::holds_all;
    if (name == "append") {
        for (size_t threads : {1, 2, 4}) {
            if (!holds_all) break;
            Measured<Peer, 8>::rate(peer, "append", threads, 0);
            Measured<Peer, 64>::rate(peer, "append", threads, 0);
            Measured<Peer, 256>::rate(peer, "append", threads, 0);
        }
    } else if (name == "read_into") {
        if (!holds_all) return true;
        Measured<Peer, 8>::rate(peer, "read_into", 0, 1);
        Measured<Peer, 64>::rate(peer, "read_into", 0, 1);
        Measured<Peer, 256>::rate(peer, "read_into", 0, 1);
    } else if (name == "flow") {
        for (auto [senders, receivers] : {std::pair<size_t, size_t>{1, 1}, {1, 3}, {3, 1}}) {
            Measured<Peer, 64>::rate(peer, "flow", senders, receivers);
            Measured<Peer, 1024>::rate(peer, "flow", senders, receivers);
        }
    } else if (name == "ping") {
        Measured<Peer, 64>::ping(peer);
    } else {
        return false;
    }
    return true;
}

/* Measures the cases that the arguments name, or all of them. Returns the status of the program. */
template <template <size_t> class Peer> int run(const char *peer, int count, char **words) {
    std::vector<std::string> names(words + 1, words + count);
    if (names.empty()) names = {"append", "read_into", "flow", "ping"};
    for (const auto &name : names) {
        if (measure<Peer>(peer, name)) continue;
        std::fprintf(stderr, "%s: there is no case %s\n", words[0], name.c_str());
        return 2;
    }
    return 0;
}

} // namespace between

#endif
