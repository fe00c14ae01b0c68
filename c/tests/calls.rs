//! The library from Rust, by `extern "C"`: two threads, of which one appends and one reads.
use std::ffi::c_void;
use std::ptr::null_mut;
use std::thread;

#[repr(C)]
struct Handle {
    at: *mut c_void,
}

#[repr(C)]
struct Settings {
    epoch: u64,
    cells: u32,
    index_count: u32,
    index_spacing: u32,
    cycles: u32,
    roll: u32,
}

#[repr(C)]
struct Answer {
    index: u64,
    length: u32,
    status: u32,
}

const DONE: u32 = 0;
const NOT_YET: u32 = 1;
const BUSY: u32 = 8;

unsafe extern "C" {
    fn linnetshelf_create(settings: *const Settings, names: *const u8, length: usize, moment: u64, out: *mut Handle) -> u32;
    fn linnetshelf_split(endpoint: *mut Handle, out: *mut Handle) -> u32;
    fn linnetshelf_destroy(handle: Handle);
    fn linnetshelf_append(endpoint: *mut Handle, moment: u64, bytes: *const u8, length: usize) -> Answer;
    fn linnetshelf_next(endpoint: *mut Handle, room: *mut u8, size: usize) -> Answer;
}

/// An endpoint, which is moved between threads and used by one at a time.
struct Endpoint(Handle);

unsafe impl Send for Endpoint {}

impl Endpoint {
    fn create(settings: &Settings, names: &str, moment: u64) -> Result<Endpoint, u32> {
        let mut out = Handle { at: null_mut() };
        match unsafe { linnetshelf_create(settings, names.as_ptr(), names.len(), moment, &mut out) } {
            DONE => Ok(Endpoint(out)),
            status => Err(status),
        }
    }

    fn split(&mut self) -> Result<Endpoint, u32> {
        let mut out = Handle { at: null_mut() };
        match unsafe { linnetshelf_split(&mut self.0, &mut out) } {
            DONE => Ok(Endpoint(out)),
            status => Err(status),
        }
    }

    fn append(&mut self, moment: u64, bytes: &[u8]) -> Result<u64, u32> {
        let answer = unsafe { linnetshelf_append(&mut self.0, moment, bytes.as_ptr(), bytes.len()) };
        match answer.status {
            DONE => Ok(answer.index),
            status => Err(status),
        }
    }

    fn next<'a>(&mut self, room: &'a mut [u8]) -> Result<(u64, &'a [u8]), u32> {
        let answer = unsafe { linnetshelf_next(&mut self.0, room.as_mut_ptr(), room.len()) };
        match answer.status {
            DONE => Ok((answer.index, &room[..answer.length as usize])),
            status => Err(status),
        }
    }
}

impl Drop for Endpoint {
    fn drop(&mut self) {
        unsafe { linnetshelf_destroy(Handle { at: self.0.at }) }
    }
}

const MESSAGES: u64 = 50_000;

fn append_all(mut endpoint: Endpoint) {
    for k in 0..MESSAGES {
        loop {
            match endpoint.append(0, &k.to_le_bytes()) {
                Ok(index) => break assert_eq!(index, k),
                Err(status) => assert_eq!(status, BUSY),
            }
        }
    }
}

fn read_all(mut endpoint: Endpoint) {
    let mut room = [0; 8];
    let mut read = 0;
    while read < MESSAGES {
        match endpoint.next(&mut room) {
            Ok((index, bytes)) => {
                assert_eq!((index, bytes), (read, &read.to_le_bytes()[..]));
                read += 1;
            }
            Err(status) => {
                assert_eq!(status, NOT_YET);
                thread::yield_now();
            }
        }
    }
}

fn main() {
    let mut settings = Settings { epoch: 0, cells: 262_144, index_count: 64, index_spacing: 16, cycles: 1, roll: 0 };
    let mut one = Endpoint::create(&settings, "reader", 0).unwrap();
    let other = one.split().unwrap();
    let writer = thread::spawn(move || append_all(one));
    let reader = thread::spawn(move || read_all(other));
    writer.join().unwrap();
    reader.join().unwrap();
    settings.cells = 1;
    assert!(Endpoint::create(&settings, "reader", 0).is_err());
    // A zero handle holds nothing.
    unsafe { linnetshelf_destroy(Handle { at: null_mut() }) }
}
