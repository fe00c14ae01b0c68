//! The channel with a bound of crossbeam: <https://docs.rs/crossbeam-channel>
//!
//! `crossbeam [CASE..]`
//!
//! The bound is the number of messages of a case, and a receiver looks by `try_recv` until a message has come. The channel without a bound
//! is that of Rust's standard library, which `mpsc` measures.
//!
//! It promises that each message is received once, by one of any number of receivers, in the order of the sends. A sender waits
//! while the channel is full. A message is gone once it was received.

#[path = "../../between.rs"]
mod between;

use between::{Message, Peer};
use crossbeam_channel::{bounded, Receiver, Sender};

struct Crossbeam;

impl Peer for Crossbeam {
    const NAME: &'static str = "crossbeam";
    type Sender<const N: usize> = Sender<Message<N>>;
    type Receiver<const N: usize> = Receiver<Message<N>>;

    fn queue<const N: usize>(most: usize) -> (Sender<Message<N>>, Receiver<Message<N>>) {
        bounded(most)
    }

    fn send<const N: usize>(sender: &Sender<Message<N>>, message: Message<N>) {
        assert!(sender.send(message).is_ok(), "the receiver is gone");
    }

    fn receive<const N: usize>(receiver: &Receiver<Message<N>>) -> Option<Message<N>> {
        receiver.try_recv().ok()
    }
}

fn main() -> std::process::ExitCode {
    between::run::<Crossbeam>()
}
