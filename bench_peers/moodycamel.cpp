/* The concurrent queue of moodycamel: https://github.com/cameron314/concurrentqueue
 *
 * moodycamel [CASE..]
 *
 * Each thread sends and receives by a token, and a receiver looks again until a message has come. Memory for all messages is
 * there before.
 *
 * It promises that each message is received once, and those of one sender in their order. Messages of several senders have no
 * order: two receivers may see them differently. A message is gone once it was received.
 */
#include "between.hpp"
#include <concurrentqueue/concurrentqueue.h>

template <size_t N> class Moodycamel {
    moodycamel::ConcurrentQueue<between::Message<N>> messages;

  public:
    static constexpr bool holds_all = true;

    /* Up to four senders have blocks of their own. */
    explicit Moodycamel(size_t most) : messages(most, 4, 0) {}

    struct Sender {
        Moodycamel &queue;
        moodycamel::ProducerToken token;

        explicit Sender(Moodycamel &queue) : queue(queue), token(queue.messages) {}

        void send(const between::Message<N> &message) {
            if (!queue.messages.enqueue(token, message)) std::exit(1);
        }
    };

    struct Receiver {
        Moodycamel &queue;
        moodycamel::ConsumerToken token;

        explicit Receiver(Moodycamel &queue) : queue(queue), token(queue.messages) {}

        bool receive(between::Message<N> &message) {
            return queue.messages.try_dequeue(token, message);
        }
    };
};

int main(int count, char **words) {
    return between::run<Moodycamel>("moodycamel", count, words);
}
