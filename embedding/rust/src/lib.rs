//! Plays networks in plain Rust, by the static library that was proved.
//!
//! The proof ends at the calls of that library: what stands here is plain Rust, which nothing proves.

use std::ffi::c_void;
use std::ptr;

/// A rule with its place is shorter than this.
const REFUSAL: usize = 64;

extern "C" {
    fn gezmulda_play(
        net: *const u8,
        net_length: usize,
        input: *const u8,
        input_length: usize,
        probes: bool,
        out: *mut u8,
        room: usize,
        given: *mut usize,
    ) -> u8;

    fn gezmulda_check(
        net: *const u8,
        net_length: usize,
        out: *mut u8,
        room: usize,
        given: *mut usize,
    ) -> u8;

    fn gezmulda_make(
        net: *const u8,
        net_length: usize,
        probes: bool,
        handle: *mut Handle,
        out: *mut u8,
        room: usize,
        given: *mut usize,
    ) -> u8;

    fn gezmulda_feed(
        handle: *mut Handle,
        piece: *const u8,
        piece_length: usize,
        waiting: *mut usize,
    ) -> u8;

    fn gezmulda_finish(handle: *mut Handle, waiting: *mut usize) -> u8;

    fn gezmulda_take(handle: *mut Handle, room: *mut u8, room_length: usize) -> usize;

    fn gezmulda_free(handle: *mut Handle);
}

/// What the library keeps a run by. It holds one from `gezmulda_make` to `gezmulda_free`.
#[repr(C)]
struct Handle {
    held: *mut c_void,
}

/// How a run ended.
#[derive(Clone, Copy, Debug, PartialEq, Eq)]
pub enum End {
    /// All lines were played.
    Done,
    /// A sample had a fault, which the last line names.
    Fault,
    /// A line was refused, which the last line names.
    BadLine,
    /// The network was refused, and nothing was played.
    Refused,
    /// Memory ran out for what is given.
    NoRoom,
}

/// What a run gave.
#[derive(Clone, Debug, PartialEq, Eq)]
pub struct Played {
    /// How it ended.
    pub end: End,
    /// The lines that it gave: one a sample, behind those of its readings where these are asked for.
    pub lines: String,
}

/// Plays the lines of an input through the network that a text is, which calls no stored functions.
pub fn play(net: &str, input: &str, probes: bool) -> Played {
    let (mut status, mut out, mut given) = play_into(net, input, probes, 4 * input.len() + 256);
    if given > out.len() {
        // The same run once more: what a network gives for lines is always the same.
        (status, out, given) = play_into(net, input, probes, given);
    }
    out.truncate(given);
    Played {
        end: end_of(status),
        lines: String::from_utf8(out).expect("lines are texts"),
    }
}

/// Says whether a text is a network that is accepted without stored functions. The error is the rule that it breaks and the
/// place where it does, as in `C5 BarePre 2:31`.
pub fn check(net: &str) -> Result<(), String> {
    let mut out = vec![0; REFUSAL];
    let mut given = 0;
    // As for a run.
    let status = unsafe {
        gezmulda_check(
            net.as_ptr(),
            net.len(),
            out.as_mut_ptr(),
            out.len(),
            &mut given,
        )
    };
    out.truncate(given);
    match end_of(status) {
        End::Done => Ok(()),
        _ => Err(String::from_utf8(out).expect("a refusal is a text")),
    }
}

/// A run that is fed its input piece by piece. It stays on the thread that made it.
pub struct Engine {
    handle: Handle,
    end: Option<End>,
}

impl Engine {
    /// A run at its start, of the network that a text is, which calls no stored functions. It gives the readings of probes too,
    /// or doesn't. The error is what the network is refused for, as in `check`, or `Memory`.
    pub fn new(net: &str, probes: bool) -> Result<Engine, String> {
        let mut handle = Handle {
            held: ptr::null_mut(),
        };
        let mut out = vec![0; REFUSAL];
        let mut given = 0;
        // The handle holds nothing, and is our own; so are `out` and `given`.
        let status = unsafe {
            gezmulda_make(
                net.as_ptr(),
                net.len(),
                probes,
                &mut handle,
                out.as_mut_ptr(),
                out.len(),
                &mut given,
            )
        };
        out.truncate(given);
        match end_of(status) {
            End::Done => Ok(Engine { handle, end: None }),
            _ => Err(String::from_utf8(out).expect("a refusal is a text")),
        }
    }

    /// Feeds a piece of the input, and answers what it gives: one line a sample, behind those of its readings where these are
    /// asked for. A line is played once its line feed is there. After the end it gives nothing.
    pub fn feed(&mut self, piece: &str) -> String {
        let mut waiting = 0;
        // The handle holds a run, which nothing else uses, and the length is that of the piece.
        let status = unsafe {
            gezmulda_feed(
                &mut self.handle,
                piece.as_ptr(),
                piece.len(),
                &mut waiting,
            )
        };
        if end_of(status) != End::Done {
            self.end = Some(end_of(status));
        }
        self.take(waiting)
    }

    /// Ends the input, whose last line may have no line feed, and answers what that gives. Nothing comes after it.
    pub fn finish(&mut self) -> String {
        let mut waiting = 0;
        // The handle holds a run, which nothing else uses.
        let status = unsafe { gezmulda_finish(&mut self.handle, &mut waiting) };
        self.end = Some(end_of(status));
        self.take(waiting)
    }

    /// What waits, which is so many bytes.
    fn take(&mut self, waiting: usize) -> String {
        let mut said = vec![0; waiting];
        // The handle holds a run, which nothing else uses, and the length is that of the room.
        let taken = unsafe { gezmulda_take(&mut self.handle, said.as_mut_ptr(), said.len()) };
        said.truncate(taken);
        String::from_utf8(said).expect("lines are texts")
    }

    /// How the run ended, if it did.
    pub fn end(&self) -> Option<End> {
        self.end
    }
}

impl Drop for Engine {
    fn drop(&mut self) {
        // The handle holds a run until here.
        unsafe { gezmulda_free(&mut self.handle) }
    }
}

/// The status, what was written into a room of that size, and how many bytes are given.
fn play_into(net: &str, input: &str, probes: bool, room: usize) -> (u8, Vec<u8>, usize) {
    let mut out = vec![0; room];
    let mut given = 0;
    // Each length is that of what its pointer points to, no pointer of a slice is null, and `out` and `given` are our own.
    let status = unsafe {
        gezmulda_play(
            net.as_ptr(),
            net.len(),
            input.as_ptr(),
            input.len(),
            probes,
            out.as_mut_ptr(),
            out.len(),
            &mut given,
        )
    };
    (status, out, given)
}

fn end_of(status: u8) -> End {
    match status {
        0 => End::Done,
        3 => End::Fault,
        4 => End::BadLine,
        5 => End::Refused,
        6 => End::NoRoom,
        _ => unreachable!("a status of the library"),
    }
}
