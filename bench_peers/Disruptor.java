import com.lmax.disruptor.BusySpinWaitStrategy;
import com.lmax.disruptor.EventPoller;
import com.lmax.disruptor.RingBuffer;
import com.lmax.disruptor.dsl.ProducerType;

/**
 * The ring of the LMAX Disruptor: https://lmax-exchange.github.io/disruptor
 *
 * <p>Disruptor [CASE..]
 *
 * <p>The ring has an event for each message of a case, or more, since its size is a power of two. The events are made before, a
 * sender copies the bytes of a message into one, and a receiver copies them out of it. It looks by a poller, which hands over
 * all that have come, until there are some. Several senders share the ring by the producer type MULTI.
 *
 * <p>It promises that each receiver gets each message, in one order for all. A sender would wait for the receivers that the ring
 * was told of, before it writes over what they have not read: here the ring is large enough.
 */
final class Disruptor {
    private static final class Ring implements Between.Queue {
        private final RingBuffer<byte[]> events;

        Ring(int bytes, int most, boolean isShared) {
            ProducerType type = isShared ? ProducerType.MULTI : ProducerType.SINGLE;
            int size = Math.max(2, Integer.highestOneBit(most - 1) << 1);
            events = RingBuffer.create(type, () -> new byte[bytes], size, new BusySpinWaitStrategy());
        }

        @Override
        public void send(byte[] message) {
            long place = events.next();
            System.arraycopy(message, 0, events.get(place), 0, message.length);
            events.publish(place);
        }

        @Override
        public Between.Receiver receiver() {
            EventPoller<byte[]> poller = events.newPoller();
            events.addGatingSequences(poller.getSequence());
            return new Poller(poller);
        }
    }

    private static final class Poller implements Between.Receiver, EventPoller.Handler<byte[]> {
        private final EventPoller<byte[]> poller;
        private byte[] into;
        private int most;
        private int came;

        Poller(EventPoller<byte[]> poller) {
            this.poller = poller;
        }

        @Override
        public boolean onEvent(byte[] event, long place, boolean isLast) {
            System.arraycopy(event, 0, into, 0, event.length);
            came++;
            return came < most;
        }

        @Override
        public int receive(byte[] into, int most) throws Exception {
            this.into = into;
            this.most = most;
            came = 0;
            poller.poll(this);
            return came;
        }
    }

    public static void main(String[] words) throws Exception {
        Between.run("disruptor", Ring::new, words);
    }
}
