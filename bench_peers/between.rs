//! What the Rust peers between threads have in common: the cases, the threads and the clock, as in `between.hpp`.

use std::hint::{black_box, spin_loop};
use std::sync::atomic::{AtomicUsize, Ordering};
use std::thread;
use std::time::{Duration, Instant};

/// A message of a fixed size, so that nothing is allocated for it.
pub type Message<const N: usize> = [u8; N];

/// A queue between threads.
pub trait Peer {
    /// Its name in a line.
    const NAME: &'static str;
    /// What a thread sends messages of this size by. There is one for each thread.
    type Sender<const N: usize>: Clone + Send;
    /// What a thread receives them by.
    type Receiver<const N: usize>: Send;

    /// Makes a queue with room for this many messages.
    fn queue<const N: usize>(most: usize) -> (Self::Sender<N>, Self::Receiver<N>);
    /// Sends a message.
    fn send<const N: usize>(sender: &Self::Sender<N>, message: Message<N>);
    /// Receives the next message, if it has come.
    fn receive<const N: usize>(receiver: &Self::Receiver<N>) -> Option<Message<N>>;
}

/// How many messages a ping sends.
const PINGS: usize = 10_000;

/// How many messages of this size a cycle of 4 MiB holds, each after a header of 4 bytes.
const fn messages_of(bytes: usize) -> usize {
    (4 << 20) / (4 + bytes)
}

/// How often a case is measured.
fn repetitions() -> usize {
    std::env::var("REPS")
        .ok()
        .and_then(|text| text.parse().ok())
        .unwrap_or(3)
        .max(1)
}

fn send_all<P: Peer, const N: usize>(senders: &[P::Sender<N>], count: usize) {
    let message = black_box([b'x'; N]);
    for _ in 0..count {
        for sender in senders {
            P::send(sender, message);
        }
    }
}

/// Waits for the next message, by looking again and again.
fn receive<P: Peer, const N: usize>(receiver: &P::Receiver<N>) {
    loop {
        if let Some(message) = P::receive(receiver) {
            black_box(&message);
            return;
        }
        spin_loop();
    }
}

fn receive_all<P: Peer, const N: usize>(receiver: &P::Receiver<N>, count: usize) {
    for _ in 0..count {
        receive::<P, N>(receiver);
    }
}

/// Waits until this many threads have come, and does a job. Returns when it began and ended.
fn timed(come: &AtomicUsize, all: usize, job: impl FnOnce()) -> (Instant, Instant) {
    come.fetch_add(1, Ordering::SeqCst);
    while come.load(Ordering::SeqCst) < all {
        spin_loop();
    }
    let start = Instant::now();
    job();
    (start, Instant::now())
}

/// The time from the first start to the last end.
fn whole(spans: &[(Instant, Instant)]) -> Duration {
    let start = spans.iter().map(|span| span.0).min();
    let end = spans.iter().map(|span| span.1).max();
    start
        .zip(end)
        .map_or(Duration::MAX, |(start, end)| end - start)
}

/// The time in which these senders send this many messages each, and each receiver gets all of them. Each receiver has a
/// queue of its own, through which as many messages went before, so that its memory is mapped.
fn turn<P: Peer, const N: usize>(senders: usize, receivers: usize, each: usize) -> Duration {
    let all = each * senders.max(1);
    let queues: Vec<_> = (0..receivers.max(1)).map(|_| P::queue::<N>(all)).collect();
    let (own, ends): (Vec<_>, Vec<_>) = queues.into_iter().unzip();
    send_all::<P, N>(&own, all);
    for receiver in &ends {
        receive_all::<P, N>(receiver, all);
    }
    if senders == 0 {
        send_all::<P, N>(&own, all);
    }
    let threads = senders + receivers;
    let come = AtomicUsize::new(0);
    let spans = thread::scope(|scope| {
        let come = &come;
        let mut handles = Vec::new();
        for _ in 0..senders {
            let own = own.clone();
            handles
                .push(scope.spawn(move || timed(come, threads, || send_all::<P, N>(&own, each))));
        }
        // Without receivers the queue has to outlive the sends.
        let mut kept = ends;
        for _ in 0..receivers {
            if let Some(receiver) = kept.pop() {
                handles.push(
                    scope.spawn(move || {
                        timed(come, threads, || receive_all::<P, N>(&receiver, all))
                    }),
                );
            }
        }
        let spans: Vec<_> = handles
            .into_iter()
            .filter_map(|handle| handle.join().ok())
            .collect();
        drop(kept);
        spans
    });
    assert_eq!(spans.len(), threads, "a thread failed");
    whole(&spans)
}

fn print_line<P: Peer>(case: &str, bytes: usize, threads: &str, value: f64, unit: &str) {
    let name = P::NAME;
    println!(
        "{{\"impl\":\"{name}\",\"case\":\"{case}\",\"payload\":{bytes},\"threads\":\"{threads}\",\"value\":{value:.2},\"unit\":\"{unit}\"}}"
    );
}

/// Measures messages a second.
fn rate<P: Peer, const N: usize>(case: &str, senders: usize, receivers: usize) {
    let each = messages_of(N) / senders.max(1);
    let best = (0..repetitions())
        .map(|_| turn::<P, N>(senders, receivers, each))
        .min();
    let threads = match (senders, receivers) {
        (0, threads) | (threads, 0) => threads.to_string(),
        (senders, receivers) => format!("{senders}to{receivers}"),
    };
    let messages = (each * senders.max(1)) as f64;
    print_line::<P>(
        case,
        N,
        &threads,
        messages / best.unwrap_or(Duration::MAX).as_secs_f64(),
        "msg/s",
    );
}

/// How long each message was on its way. Each is sent once the one before it was received.
fn ping_times<P: Peer, const N: usize>() -> Vec<Duration> {
    let (sender, receiver) = P::queue::<N>(PINGS);
    let received = AtomicUsize::new(0);
    let (sent, came) = thread::scope(|scope| {
        let received = &received;
        let reader = scope.spawn(move || {
            received.fetch_add(1, Ordering::SeqCst);
            let mut came = Vec::with_capacity(PINGS);
            for _ in 0..PINGS {
                receive::<P, N>(&receiver);
                came.push(Instant::now());
                received.fetch_add(1, Ordering::SeqCst);
            }
            came
        });
        let mut sent = Vec::with_capacity(PINGS);
        for number in 0..PINGS {
            while received.load(Ordering::SeqCst) < number + 1 {
                spin_loop();
            }
            sent.push(Instant::now());
            P::send(&sender, [b'x'; N]);
        }
        (sent, reader.join().unwrap_or_default())
    });
    assert_eq!(came.len(), PINGS, "a thread failed");
    sent.iter()
        .zip(&came)
        .map(|(sent, came)| *came - *sent)
        .collect()
}

fn ping<P: Peer, const N: usize>() {
    let mut half = Duration::MAX;
    let mut most = Duration::MAX;
    for _ in 0..repetitions() {
        let mut times = ping_times::<P, N>();
        times.sort_unstable();
        half = half.min(times[times.len() / 2]);
        most = most.min(times[(times.len() - 1) / 100 * 99]);
    }
    print_line::<P>("ping_p50", N, "1to1", half.as_nanos() as f64, "ns");
    print_line::<P>("ping_p99", N, "1to1", most.as_nanos() as f64, "ns");
}

/// Measures a case. Returns whether there is one of that name.
fn measure<P: Peer>(case: &str) -> bool {
    match case {
        "append" => {
            for threads in [1, 2, 4] {
                rate::<P, 8>(case, threads, 0);
                rate::<P, 64>(case, threads, 0);
                rate::<P, 256>(case, threads, 0);
            }
        }
        "read_into" => {
            rate::<P, 8>(case, 0, 1);
            rate::<P, 64>(case, 0, 1);
            rate::<P, 256>(case, 0, 1);
        }
        "flow" => {
            for (senders, receivers) in [(1, 1), (1, 3), (3, 1)] {
                rate::<P, 64>(case, senders, receivers);
                rate::<P, 1024>(case, senders, receivers);
            }
        }
        "ping" => ping::<P, 64>(),
        _ => return false,
    }
    true
}

/// Measures the cases that the arguments name, or all of them. Returns the status of the program.
pub fn run<P: Peer>() -> std::process::ExitCode {
    let mut names: Vec<String> = std::env::args().skip(1).collect();
    if names.is_empty() {
        names = ["append", "read_into", "flow", "ping"]
            .map(String::from)
            .to_vec();
    }
    for name in names {
        if !measure::<P>(&name) {
            eprintln!("there is no case {name}");
            return 2.into();
        }
    }
    0.into()
}
