/* A queue between threads by a mutex, a condition variable and std::deque: the way that one writes by hand.
 *
 * mutex [CASE..]
 *
 * It promises that each message is received once, in the order of the sends. A receiver sleeps until a message comes, so it
 * uses no processor meanwhile. A message is gone once it was received, and there is no bound.
 */
#include "between.hpp"
#include <condition_variable>
#include <deque>
#include <mutex>

template <size_t N> class Mutexed {
    std::mutex mutex;
    std::condition_variable came;
    std::deque<between::Message<N>> messages;

  public:
    static constexpr bool holds_all = true;

    explicit Mutexed(size_t) {}

    struct Sender {
        Mutexed &queue;

        explicit Sender(Mutexed &queue) : queue(queue) {}

        void send(const between::Message<N> &message) {
            {
                std::lock_guard<std::mutex> guard(queue.mutex);
                queue.messages.push_back(message);
            }
            queue.came.notify_one();
        }
    };

    struct Receiver {
        Mutexed &queue;

        explicit Receiver(Mutexed &queue) : queue(queue) {}

        bool receive(between::Message<N> &message) {
            std::unique_lock<std::mutex> guard(queue.mutex);
            queue.came.wait(guard, [this] { return !queue.messages.empty(); });
            message = queue.messages.front();
            queue.messages.pop_front();
            return true;
        }
    };
};

int main(int count, char **words) {
    return between::run<Mutexed>("mutex", count, words);
}
