//! Linnetshelf: an append-only journal in memory that many endpoints share, and the folders of the program `cq`.
//!
//! ```
//! use linnetshelf::{Endpoint, Settings};
//!
//! let mut queue = Endpoint::create(&Settings::default(), &["reader"], 1_728_000_000_000)?;
//! queue.append(1_728_000_000_000, b"hello")?;
//! let mut buffer = [0; 64];
//! let message = queue.next(&mut buffer)?.expect("one was appended");
//! assert_eq!((message.index.sequence(), message.data), (0, &b"hello"[..]));
//! # Ok::<(), linnetshelf::Error>(())
//! ```
//!
//! Each thread has an endpoint of its own: [`Endpoint::split`] makes one. No call on an endpoint waits for another one, except
//! those that have a timeout. Moments are in milliseconds of Unix time, and the caller passes them.
//!
//! # Features
//!
//! `std`, on by default: messages as values of their own, waiting, and folders. Without it the crate is `no_std` and allocates
//! nothing itself; the library calls `malloc`.
#![cfg_attr(not(any(feature = "std", test)), no_std)]
#![deny(unsafe_code)]
#![warn(missing_docs, missing_debug_implementations, rust_2018_idioms, clippy::undocumented_unsafe_blocks)]

mod endpoint;
mod error;
#[cfg(feature = "std")]
mod folder;
#[cfg(feature = "std")]
mod journal;
mod raw;
mod saved;
mod settings;
#[cfg(feature = "std")]
mod waiting;

pub use endpoint::{Begun, Direction, Endpoint, Peeked, Received, StopError};
pub use error::{Error, ImageFault};
#[cfg(feature = "std")]
pub use folder::FolderError;
#[cfg(feature = "std")]
pub use journal::{CloseError, Journal, Stopped, Unsaved, init};
#[cfg(feature = "std")]
pub use saved::Image;
pub use saved::Saved;
pub use settings::{Index, Roll, Settings};
#[cfg(feature = "std")]
pub use waiting::{Backwards, Message, Messages, now};

/// The examples of the document run.
#[cfg(all(doctest, feature = "std"))]
#[doc = include_str!("../../../docs/RUST.md")]
struct Document;
