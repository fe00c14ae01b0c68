//! The channel of Rust's standard library: `std::sync::mpsc::channel`.
//!
//! `mpsc [CASE..]`
//!
//! A receiver looks by `try_recv` until a message has come.
//!
//! It promises that each message is received once, in the order of the sends. There is one receiver and no bound. A message is gone
//! once it was received.

mod between;

use between::{Message, Peer};
use std::sync::mpsc::{channel, Receiver, Sender};

struct Mpsc;

impl Peer for Mpsc {
    const NAME: &'static str = "mpsc";
    type Sender<const N: usize> = Sender<Message<N>>;
    type Receiver<const N: usize> = Receiver<Message<N>>;

    fn queue<const N: usize>(_most: usize) -> (Sender<Message<N>>, Receiver<Message<N>>) {
        channel()
    }

    fn send<const N: usize>(sender: &Sender<Message<N>>, message: Message<N>) {
        assert!(sender.send(message).is_ok(), "the receiver is gone");
    }

    fn receive<const N: usize>(receiver: &Receiver<Message<N>>) -> Option<Message<N>> {
        receiver.try_recv().ok()
    }
}

fn main() -> std::process::ExitCode {
    between::run::<Mpsc>()
}
