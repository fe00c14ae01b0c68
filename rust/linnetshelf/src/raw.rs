//! The calls of `linnetshelf.h`. All unsafe code of this crate is here.
//!
//! The SAFETY comments cite what the header requires of its callers:
//!
//! - HANDLES: a call on a handle takes one that the library wrote and that was not destroyed; `linnetshelf_destroy` also takes a
//!   zero one. `Owned` has the only copy of such a handle, and destroys it once, at its end.
//! - THREADS: a handle is in one call at a time. Each call here takes `&mut self`, and `Owned` is not `Sync`.
//! - BYTES: addresses are not null and have that many bytes, which nobody else writes or reads meanwhile. A slice has such an
//!   address, also an empty one.
#![allow(unsafe_code)]
use core::ffi::c_void;
use core::ptr::null_mut;
use core::sync::atomic::{AtomicU64, Ordering};

#[repr(C)]
struct Handle {
    at: *mut c_void,
}

#[repr(C)]
pub(crate) struct RawSettings {
    pub(crate) epoch: u64,
    pub(crate) cells: u32,
    pub(crate) index_count: u32,
    pub(crate) index_spacing: u32,
    pub(crate) cycles: u32,
    pub(crate) roll: u32,
}

/// What a call returns that reports more than a status.
#[repr(C)]
#[derive(Clone, Copy)]
pub(crate) struct Answer {
    pub(crate) index: u64,
    pub(crate) length: u32,
    pub(crate) status: u32,
}

unsafe extern "C" {
    fn linnetshelf_create(
        settings: *const RawSettings,
        names: *const u8,
        length: usize,
        moment: u64,
        out: *mut Handle,
    ) -> u32;
    fn linnetshelf_split(endpoint: *mut Handle, out: *mut Handle) -> u32;
    fn linnetshelf_meet(endpoint: *mut Handle, other: *mut Handle) -> u32;
    fn linnetshelf_destroy(handle: Handle);
    fn linnetshelf_append(endpoint: *mut Handle, moment: u64, bytes: *const u8, length: usize) -> Answer;
    fn linnetshelf_begin(endpoint: *mut Handle, moment: u64, most: u32) -> u32;
    fn linnetshelf_put(endpoint: *mut Handle, bytes: *const u8, length: usize) -> u32;
    fn linnetshelf_complete(endpoint: *mut Handle) -> Answer;
    fn linnetshelf_roll_back(endpoint: *mut Handle) -> u32;
    fn linnetshelf_advance(endpoint: *mut Handle, moment: u64) -> Answer;
    fn linnetshelf_close(endpoint: *mut Handle) -> u32;
    fn linnetshelf_next(endpoint: *mut Handle, room: *mut u8, size: usize) -> Answer;
    fn linnetshelf_peek(endpoint: *mut Handle) -> Answer;
    fn linnetshelf_read_at(endpoint: *mut Handle, index: u64, room: *mut u8, size: usize) -> Answer;
    fn linnetshelf_direction(endpoint: *mut Handle, direction: u32) -> u32;
    fn linnetshelf_move_to(endpoint: *mut Handle, index: u64) -> u32;
    fn linnetshelf_to_start(endpoint: *mut Handle) -> u32;
    fn linnetshelf_to_end(endpoint: *mut Handle) -> Answer;
    fn linnetshelf_end(endpoint: *mut Handle) -> Answer;
    fn linnetshelf_cursor(endpoint: *mut Handle) -> Answer;
    fn linnetshelf_drop_before(endpoint: *mut Handle, cycle: u32) -> Answer;
    fn linnetshelf_take(endpoint: *mut Handle, name: *const u8, length: usize, room: *mut u8, size: usize) -> Answer;
    fn linnetshelf_position(endpoint: *mut Handle, name: *const u8, length: usize) -> Answer;
    fn linnetshelf_seek(endpoint: *mut Handle, name: *const u8, length: usize, from: u64, to: u64) -> Answer;
    fn linnetshelf_cycle_of(roll: u32, epoch: u64, moment: u64) -> Answer;
    fn linnetshelf_cycle_name(roll: u32, epoch: u64, cycle: u32, room: *mut u8, size: usize) -> Answer;
    fn linnetshelf_cycle_named(roll: u32, epoch: u64, name: *const u8, length: usize) -> Answer;
    fn linnetshelf_stop(handle: *mut Handle) -> u32;
    fn linnetshelf_snapshot(endpoint: *mut Handle, out: *mut Handle) -> u32;
    fn linnetshelf_saved_count(saved: *mut Handle) -> Answer;
    fn linnetshelf_saved_cycle(saved: *mut Handle, k: u32) -> Answer;
    fn linnetshelf_saved_length(saved: *mut Handle, k: u32) -> Answer;
    fn linnetshelf_saved_ended(saved: *mut Handle, k: u32) -> Answer;
    fn linnetshelf_saved_image(saved: *mut Handle, k: u32, room: *mut u8, size: usize) -> Answer;
    fn linnetshelf_saved_position(saved: *mut Handle, k: u32) -> Answer;
    fn linnetshelf_saved_floor(saved: *mut Handle) -> Answer;
    fn linnetshelf_saved_new(settings: *const RawSettings, names: *const u8, length: usize, out: *mut Handle) -> u32;
    fn linnetshelf_saved_add(saved: *mut Handle, cycle: u32, bytes: *const u8, length: usize) -> Answer;
    fn linnetshelf_saved_set_position(saved: *mut Handle, k: u32, position: u64) -> u32;
    fn linnetshelf_saved_set_floor(saved: *mut Handle, floor: u32) -> u32;
    fn linnetshelf_open(saved: *mut Handle, out: *mut Handle) -> u32;
    fn linnetshelf_text(status: u32, room: *mut u8, size: usize) -> usize;
    #[cfg(test)]
    fn linnetshelf_size(which: u32) -> usize;
}

/// A handle, which is destroyed at the end of this value: an endpoint of a queue, or what was saved of one.
pub(crate) struct Owned {
    handle: Handle,
    /// Endpoints have the same number exactly if one was split off another.
    queue: u64,
}

// SAFETY: THREADS lets a handle go to another thread by what orders memory, and that is how a value gets to another thread.
// `Owned` is not Sync, so a handle is in one call at a time.
unsafe impl Send for Owned {}

impl Drop for Owned {
    fn drop(&mut self) {
        let handle = Handle { at: self.handle.at };
        // SAFETY: HANDLES. This value ends here, so nobody uses its handle after this.
        unsafe { linnetshelf_destroy(handle) }
    }
}

/// Returns what a call wrote through its argument `out`, or the status by which it was refused.
fn handed_out(call: impl FnOnce(&mut Handle) -> u32) -> Result<Owned, u32> {
    let mut handle = Handle { at: null_mut() };
    match call(&mut handle) {
        0 => Ok(Owned { handle, queue: next_queue() }),
        status => Err(status),
    }
}

/// Returns the number of a queue, which no other one of this process has.
fn next_queue() -> u64 {
    static NEXT: AtomicU64 = AtomicU64::new(0);
    NEXT.fetch_add(1, Ordering::Relaxed)
}

pub(crate) fn create(settings: &RawSettings, names: &[u8], moment: u64) -> Result<Owned, u32> {
    // SAFETY: BYTES. `settings` and `out` are references, and `out` is a zero handle.
    handed_out(|out| unsafe { linnetshelf_create(settings, names.as_ptr(), names.len(), moment, out) })
}

pub(crate) fn saved_new(settings: &RawSettings, names: &[u8]) -> Result<Owned, u32> {
    // SAFETY: BYTES. `settings` and `out` are references, and `out` is a zero handle.
    handed_out(|out| unsafe { linnetshelf_saved_new(settings, names.as_ptr(), names.len(), out) })
}

/// Returns the cycle in which a moment lies.
pub(crate) fn cycle_of(roll: u32, epoch: u64, moment: u64) -> Answer {
    // SAFETY: it takes any numbers, and touches no memory of the caller.
    unsafe { linnetshelf_cycle_of(roll, epoch, moment) }
}

/// Copies the name of a cycle to a buffer.
pub(crate) fn cycle_name(roll: u32, epoch: u64, cycle: u32, buffer: &mut [u8]) -> Answer {
    // SAFETY: BYTES. It touches no handle.
    unsafe { linnetshelf_cycle_name(roll, epoch, cycle, buffer.as_mut_ptr(), buffer.len()) }
}

/// Returns the cycle with a name.
pub(crate) fn cycle_named(roll: u32, epoch: u64, name: &str) -> Answer {
    // SAFETY: BYTES. It touches no handle.
    unsafe { linnetshelf_cycle_named(roll, epoch, name.as_ptr(), name.len()) }
}

/// Copies the text of a status to a buffer.
pub(crate) fn text(status: u32, buffer: &mut [u8; 128]) -> &str {
    // SAFETY: BYTES. It touches no handle.
    let length = unsafe { linnetshelf_text(status, buffer.as_mut_ptr(), buffer.len()) };
    buffer.get(..length).and_then(|text| core::str::from_utf8(text).ok()).unwrap_or_default()
}

/// Returns the size of a handle (0), of settings (1) or of an answer (2).
#[cfg(test)]
pub(crate) fn size(which: u32) -> usize {
    // SAFETY: it takes any number, and touches no memory of the caller.
    unsafe { linnetshelf_size(which) }
}

impl Owned {
    pub(crate) fn split(&mut self) -> Result<Owned, u32> {
        // SAFETY: HANDLES, THREADS. `out` is a zero handle, and another one than this.
        let mut split = handed_out(|out| unsafe { linnetshelf_split(&mut self.handle, out) })?;
        split.queue = self.queue;
        Ok(split)
    }

    /// Lets two endpoints share what they have seen; returns `None` and does nothing if they are of two queues.
    pub(crate) fn meet(&mut self, other: &mut Owned) -> Option<u32> {
        if self.queue != other.queue {
            return None;
        }
        // SAFETY: HANDLES, THREADS. Two values have two handles, and with one number they are of one queue.
        Some(unsafe { linnetshelf_meet(&mut self.handle, &mut other.handle) })
    }

    /// Returns the number of the queue.
    #[cfg(feature = "std")]
    pub(crate) fn queue(&self) -> u64 {
        self.queue
    }

    #[inline]
    pub(crate) fn append(&mut self, moment: u64, bytes: &[u8]) -> Answer {
        // SAFETY: HANDLES, THREADS, BYTES.
        unsafe { linnetshelf_append(&mut self.handle, moment, bytes.as_ptr(), bytes.len()) }
    }

    pub(crate) fn begin(&mut self, moment: u64, most: u32) -> u32 {
        // SAFETY: HANDLES, THREADS.
        unsafe { linnetshelf_begin(&mut self.handle, moment, most) }
    }

    pub(crate) fn put(&mut self, bytes: &[u8]) -> u32 {
        // SAFETY: HANDLES, THREADS, BYTES.
        unsafe { linnetshelf_put(&mut self.handle, bytes.as_ptr(), bytes.len()) }
    }

    pub(crate) fn complete(&mut self) -> Answer {
        // SAFETY: HANDLES, THREADS.
        unsafe { linnetshelf_complete(&mut self.handle) }
    }

    pub(crate) fn roll_back(&mut self) -> u32 {
        // SAFETY: HANDLES, THREADS.
        unsafe { linnetshelf_roll_back(&mut self.handle) }
    }

    pub(crate) fn advance(&mut self, moment: u64) -> Answer {
        // SAFETY: HANDLES, THREADS.
        unsafe { linnetshelf_advance(&mut self.handle, moment) }
    }

    pub(crate) fn close(&mut self) -> u32 {
        // SAFETY: HANDLES, THREADS.
        unsafe { linnetshelf_close(&mut self.handle) }
    }

    #[inline]
    pub(crate) fn next(&mut self, buffer: &mut [u8]) -> Answer {
        // SAFETY: HANDLES, THREADS, BYTES.
        unsafe { linnetshelf_next(&mut self.handle, buffer.as_mut_ptr(), buffer.len()) }
    }

    #[inline]
    pub(crate) fn read_at(&mut self, index: u64, buffer: &mut [u8]) -> Answer {
        // SAFETY: HANDLES, THREADS, BYTES.
        unsafe { linnetshelf_read_at(&mut self.handle, index, buffer.as_mut_ptr(), buffer.len()) }
    }

    pub(crate) fn direction(&mut self, direction: u32) -> u32 {
        // SAFETY: HANDLES, THREADS.
        unsafe { linnetshelf_direction(&mut self.handle, direction) }
    }

    pub(crate) fn move_to(&mut self, index: u64) -> u32 {
        // SAFETY: HANDLES, THREADS.
        unsafe { linnetshelf_move_to(&mut self.handle, index) }
    }

    pub(crate) fn move_to_start(&mut self) -> u32 {
        // SAFETY: HANDLES, THREADS.
        unsafe { linnetshelf_to_start(&mut self.handle) }
    }

    pub(crate) fn move_to_end(&mut self) -> Answer {
        // SAFETY: HANDLES, THREADS.
        unsafe { linnetshelf_to_end(&mut self.handle) }
    }

    pub(crate) fn end(&mut self) -> Answer {
        // SAFETY: HANDLES, THREADS.
        unsafe { linnetshelf_end(&mut self.handle) }
    }

    pub(crate) fn peek(&mut self) -> Answer {
        // SAFETY: HANDLES, THREADS.
        unsafe { linnetshelf_peek(&mut self.handle) }
    }

    pub(crate) fn cursor(&mut self) -> Answer {
        // SAFETY: HANDLES, THREADS.
        unsafe { linnetshelf_cursor(&mut self.handle) }
    }

    pub(crate) fn drop_before(&mut self, cycle: u32) -> Answer {
        // SAFETY: HANDLES, THREADS.
        unsafe { linnetshelf_drop_before(&mut self.handle, cycle) }
    }

    #[inline]
    pub(crate) fn take(&mut self, name: &str, buffer: &mut [u8]) -> Answer {
        let (room, size) = (buffer.as_mut_ptr(), buffer.len());
        // SAFETY: HANDLES, THREADS, BYTES.
        unsafe { linnetshelf_take(&mut self.handle, name.as_ptr(), name.len(), room, size) }
    }

    pub(crate) fn position(&mut self, name: &str) -> Answer {
        // SAFETY: HANDLES, THREADS, BYTES.
        unsafe { linnetshelf_position(&mut self.handle, name.as_ptr(), name.len()) }
    }

    pub(crate) fn seek(&mut self, name: &str, from: u64, to: u64) -> Answer {
        // SAFETY: HANDLES, THREADS, BYTES.
        unsafe { linnetshelf_seek(&mut self.handle, name.as_ptr(), name.len(), from, to) }
    }

    pub(crate) fn stop(&mut self) -> u32 {
        // SAFETY: HANDLES, THREADS.
        unsafe { linnetshelf_stop(&mut self.handle) }
    }

    pub(crate) fn snapshot(&mut self) -> Result<Owned, u32> {
        // SAFETY: HANDLES, THREADS. `out` is a zero handle, and another one than this.
        handed_out(|out| unsafe { linnetshelf_snapshot(&mut self.handle, out) })
    }

    pub(crate) fn saved_count(&mut self) -> Answer {
        // SAFETY: HANDLES, THREADS.
        unsafe { linnetshelf_saved_count(&mut self.handle) }
    }

    pub(crate) fn saved_cycle(&mut self, k: u32) -> Answer {
        // SAFETY: HANDLES, THREADS.
        unsafe { linnetshelf_saved_cycle(&mut self.handle, k) }
    }

    pub(crate) fn saved_length(&mut self, k: u32) -> Answer {
        // SAFETY: HANDLES, THREADS.
        unsafe { linnetshelf_saved_length(&mut self.handle, k) }
    }

    pub(crate) fn saved_ended(&mut self, k: u32) -> Answer {
        // SAFETY: HANDLES, THREADS.
        unsafe { linnetshelf_saved_ended(&mut self.handle, k) }
    }

    pub(crate) fn saved_image(&mut self, k: u32, buffer: &mut [u8]) -> Answer {
        // SAFETY: HANDLES, THREADS, BYTES.
        unsafe { linnetshelf_saved_image(&mut self.handle, k, buffer.as_mut_ptr(), buffer.len()) }
    }

    pub(crate) fn saved_position(&mut self, k: u32) -> Answer {
        // SAFETY: HANDLES, THREADS.
        unsafe { linnetshelf_saved_position(&mut self.handle, k) }
    }

    pub(crate) fn saved_floor(&mut self) -> Answer {
        // SAFETY: HANDLES, THREADS.
        unsafe { linnetshelf_saved_floor(&mut self.handle) }
    }

    pub(crate) fn saved_add(&mut self, cycle: u32, image: &[u8]) -> Answer {
        // SAFETY: HANDLES, THREADS, BYTES.
        unsafe { linnetshelf_saved_add(&mut self.handle, cycle, image.as_ptr(), image.len()) }
    }

    pub(crate) fn saved_set_position(&mut self, k: u32, position: u64) -> u32 {
        // SAFETY: HANDLES, THREADS.
        unsafe { linnetshelf_saved_set_position(&mut self.handle, k, position) }
    }

    pub(crate) fn saved_set_floor(&mut self, floor: u32) -> u32 {
        // SAFETY: HANDLES, THREADS.
        unsafe { linnetshelf_saved_set_floor(&mut self.handle, floor) }
    }

    pub(crate) fn open(&mut self) -> Result<Owned, u32> {
        // SAFETY: HANDLES, THREADS. `out` is a zero handle, and another one than this.
        handed_out(|out| unsafe { linnetshelf_open(&mut self.handle, out) })
    }
}

#[cfg(test)]
mod tests {
    use super::*;

    #[test]
    fn the_structs_have_the_sizes_of_the_library() {
        let sizes = [size_of::<Handle>(), size_of::<RawSettings>(), size_of::<Answer>()];
        assert_eq!([size(0), size(1), size(2)], sizes);
    }

    #[test]
    fn a_zero_handle_is_destroyed() {
        // SAFETY: HANDLES. A zero handle holds nothing, and nothing is done.
        unsafe { linnetshelf_destroy(Handle { at: null_mut() }) }
    }

    /// The calls that this crate does not make: those on logs, those of many messages, since one call costs little from Rust, those
    /// of settings, which its values have, and that of the version.
    const LEFT_OUT: [&str; 14] = [
        "linnetshelf_play",
        "linnetshelf_keep",
        "linnetshelf_turn",
        "linnetshelf_settle",
        "linnetshelf_log_call",
        "linnetshelf_log_done",
        "linnetshelf_stored",
        "linnetshelf_append_many",
        "linnetshelf_next_many",
        "linnetshelf_settings_of",
        "linnetshelf_names_of",
        "linnetshelf_config_read",
        "linnetshelf_config_write",
        "linnetshelf_version",
    ];

    #[test]
    fn the_header_declares_the_same_calls_on_queues() {
        let declared = |text: &str| {
            let mut names = std::collections::BTreeSet::new();
            for (start, _) in text.match_indices("linnetshelf_") {
                let rest = &text[start..];
                let name = &rest[..rest.find(|it: char| !it.is_alphanumeric() && it != '_').unwrap()];
                let arguments = &rest[name.len()..];
                let before = text[..start].chars().next_back();
                let is_ours = !name.starts_with("linnetshelf_shelf_") && !LEFT_OUT.contains(&name);
                if arguments.starts_with('(') && before == Some(' ') && is_ours {
                    let count = arguments[..arguments.find(')').unwrap()].trim_end_matches(['\n', ' ', ',']);
                    names.insert((name.to_owned(), count.matches(',').count()));
                }
            }
            names
        };
        let header = include_str!("../../../c/linnetshelf.h");
        let ours = include_str!("raw.rs");
        let ours = &ours[ours.find("unsafe extern").unwrap()..ours.find("/// A handle, which").unwrap()];
        let body: String = header.split_once("/* Queues and endpoints. */").unwrap().1.to_owned();
        let without_comments: String =
            body.split("/*").map(|part| part.split_once("*/").map_or(part, |(_, rest)| rest)).collect();
        assert_eq!(declared(ours), declared(&without_comments));
        assert!(declared(ours).len() > 30);
    }
}
