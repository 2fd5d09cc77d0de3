//! The C calls on slices, each answering 0 or the refusal number. The only module with unsafe code.
//! Starts are 2 bytes each, high byte first; a table is 64 slots of 5 bytes, a state and a number.

/// Construction A's figures n, q, m and b; those of a move, which both it and the Larsson code take.
pub type Ranked = (u32, u32, u32, u32);

/// Construction B's, of one long run: n, q and b.
pub type Long = (u32, u32, u32);

/// The Larsson code's n, q, m and b.
#[derive(Clone, Copy, PartialEq, Eq, Debug)]
pub struct Larsson(pub u32, pub u32, pub u32, pub u32);

/// The figures of any code.
#[derive(Clone, Copy, PartialEq, Eq, Debug)]
pub enum Numbers {
    Ranked(Ranked),
    Long(Long),
    Larsson(Larsson),
}

impl From<Ranked> for Numbers {
    fn from(numbers: Ranked) -> Numbers {
        Numbers::Ranked(numbers)
    }
}

impl From<Long> for Numbers {
    fn from(numbers: Long) -> Numbers {
        Numbers::Long(numbers)
    }
}

impl From<Larsson> for Numbers {
    fn from(numbers: Larsson) -> Numbers {
        Numbers::Larsson(numbers)
    }
}

/// An eye: kind (0 plano, 1 sphere, 2 toric), sphere, cylinder and axis, in dioptres and degrees. Those that the kind doesn't use are 0.
pub type EyeNumbers = (u8, f64, f64, u8);

/// Right eye, left eye, and the pupil distance in millimetres.
pub type PrescriptionNumbers = (EyeNumbers, EyeNumbers, f64);

/// What `verify` answers for a word that doesn't agree.
pub const DIFFERS: u8 = 255;

#[rustfmt::skip]
mod c {
    use super::{Larsson, Numbers};

    /// Declares the call of each code, and the function that makes the one of given figures.
    macro_rules! of_each {
        ($($name:ident: $ranked:ident, $long:ident, $larsson:ident($($argument:ident: $kind:ty),*) -> $answer:ty;)*) => {
            extern "C" {
                $(fn $ranked(n: u32, q: u32, m: u32, b: u32, $($argument: $kind),*) -> $answer;
                fn $long(n: u32, q: u32, b: u32, $($argument: $kind),*) -> $answer;
                fn $larsson(n: u32, q: u32, m: u32, b: u32, $($argument: $kind),*) -> $answer;)*
            }
            $(pub unsafe fn $name(f: Numbers, $($argument: $kind),*) -> $answer {
                match f {
                    Numbers::Ranked((n, q, m, b)) => $ranked(n, q, m, b, $($argument),*),
                    Numbers::Long((n, q, b)) => $long(n, q, b, $($argument),*),
                    Numbers::Larsson(Larsson(n, q, m, b)) => $larsson(n, q, m, b, $($argument),*),
                }
            })*
        };
    }

    of_each! {
        figures: burgzemi_figures, burgzemi_long_figures, burgzemi_larsson_figures(
            figures: *mut u64, figures_len: usize
        ) -> u8;
        encode: burgzemi_encode, burgzemi_long_encode, burgzemi_larsson_encode(
            starts: *const u8, starts_len: usize,
            message: *const u8, message_len: usize,
            word: *mut u8, word_len: usize
        ) -> u8;
        decode: burgzemi_decode, burgzemi_long_decode, burgzemi_larsson_decode(
            word: *const u8, word_len: usize,
            message: *mut u8, message_len: usize,
            starts: *mut u8, starts_len: usize
        ) -> u8;
        cover: burgzemi_cover, burgzemi_long_cover, burgzemi_larsson_cover(
            map: *const u8, map_len: usize,
            starts: *mut u8, starts_len: usize
        ) -> u8;
        verify: burgzemi_verify, burgzemi_long_verify, burgzemi_larsson_verify(
            starts: *const u8, starts_len: usize,
            message: *const u8, message_len: usize,
            word: *const u8, word_len: usize
        ) -> u8;
        interleave: burgzemi_interleave, burgzemi_long_interleave, burgzemi_larsson_interleave(
            depth: u32,
            words: *const u8, words_len: usize,
            strip: *mut u8, strip_len: usize
        ) -> u8;
        deinterleave: burgzemi_deinterleave, burgzemi_long_deinterleave, burgzemi_larsson_deinterleave(
            depth: u32,
            strip: *const u8, strip_len: usize,
            words: *mut u8, words_len: usize
        ) -> u8;
        job_write: burgzemi_job_write, burgzemi_long_job_write, burgzemi_larsson_job_write(
            table: *const u8, table_len: usize,
            starts: *const u8, starts_len: usize,
            payload: *const u8, payload_len: usize,
            word: *mut u8, word_len: usize
        ) -> u8;
        job_read: burgzemi_job_read, burgzemi_long_job_read, burgzemi_larsson_job_read(
            table: *const u8, table_len: usize,
            word: *const u8, word_len: usize,
            payload: *mut u8, payload_len: usize
        ) -> u8;
        prescription_write: burgzemi_prescription_write, burgzemi_long_prescription_write, burgzemi_larsson_prescription_write(
            table: *const u8, table_len: usize,
            starts: *const u8, starts_len: usize, number: u32,
            right_kind: u8, right_sphere: f64, right_cylinder: f64, right_axis: u8,
            left_kind: u8, left_sphere: f64, left_cylinder: f64, left_axis: u8, distance: f64,
            word: *mut u8, word_len: usize
        ) -> u8;
        prescription_read: burgzemi_prescription_read, burgzemi_long_prescription_read, burgzemi_larsson_prescription_read(
            table: *const u8, table_len: usize,
            word: *const u8, word_len: usize,
            marks: *mut u8, marks_len: usize,
            powers: *mut f64, powers_len: usize
        ) -> u8;
    }

    extern "C" {
        pub fn burgzemi_open(table: *mut u8, table_len: usize, number: u32) -> u8;
        pub fn burgzemi_cancel(table: *mut u8, table_len: usize, number: u32) -> u8;
        pub fn burgzemi_finish(table: *mut u8, table_len: usize, number: u32) -> u8;
        pub fn burgzemi_reinstate(table: *mut u8, table_len: usize, number: u32) -> u8;
        pub fn burgzemi_hold(table: *mut u8, table_len: usize, number: u32) -> u8;
        pub fn burgzemi_release(table: *mut u8, table_len: usize, number: u32) -> u8;
        pub fn burgzemi_move_to_a(
            n: u32, q: u32, m: u32, b: u32,
            table: *const u8, table_len: usize,
            strip: *const u8, strip_len: usize,
            moved: *mut u8, moved_len: usize,
        ) -> u8;
        pub fn burgzemi_move_to_larsson(
            n: u32, q: u32, m: u32, b: u32,
            table: *const u8, table_len: usize,
            strip: *const u8, strip_len: usize,
            moved: *mut u8, moved_len: usize,
        ) -> u8;
        pub fn burgzemi_transpose(
            kind: u8, sphere: f64, cylinder: f64, axis: u8,
            marks: *mut u8, marks_len: usize,
            powers: *mut f64, powers_len: usize,
        ) -> u8;
        pub fn burgzemi_spherical_equivalent(
            kind: u8, sphere: f64, cylinder: f64, axis: u8,
            power: *mut f64, power_len: usize,
        ) -> u8;
    }
}

/// T, r (the Larsson code's R), k and K, four numbers.
pub fn figures(f: impl Into<Numbers>, figures: &mut [u64]) -> u8 {
    // SAFETY: the pointer is the slice's own, never null, with its length, and lent alone.
    unsafe { c::figures(f.into(), figures.as_mut_ptr(), figures.len()) }
}

/// Writes a word.
pub fn encode(f: impl Into<Numbers>, starts: &[u8], message: &[u8], word: &mut [u8]) -> u8 {
    let (s, t) = (starts.as_ptr(), starts.len());
    let (from, len) = (message.as_ptr(), message.len());
    // SAFETY: each pointer is a slice's own, never null, with its length; the one written to is lent alone.
    unsafe { c::encode(f.into(), s, t, from, len, word.as_mut_ptr(), word.len()) }
}

/// Reads a word into the message and starts.
pub fn decode(f: impl Into<Numbers>, word: &[u8], message: &mut [u8], starts: &mut [u8]) -> u8 {
    let (from, len) = (word.as_ptr(), word.len());
    let (to, room) = (message.as_mut_ptr(), message.len());
    let (s, t) = (starts.as_mut_ptr(), starts.len());
    // SAFETY: each pointer is a slice's own, never null, with its length; the two written to are lent alone.
    unsafe { c::decode(f.into(), from, len, to, room, s, t) }
}

/// Finds the starts that cover a map.
pub fn cover(f: impl Into<Numbers>, map: &[u8], starts: &mut [u8]) -> u8 {
    let (s, t) = (starts.as_mut_ptr(), starts.len());
    // SAFETY: each pointer is a slice's own, never null, with its length; the one written to is lent alone.
    unsafe { c::cover(f.into(), map.as_ptr(), map.len(), s, t) }
}

/// Checks a word against starts and a message: 0 where it agrees, `DIFFERS` where it doesn't, or the refusal.
pub fn verify(f: impl Into<Numbers>, starts: &[u8], message: &[u8], word: &[u8]) -> u8 {
    let (s, t) = (starts.as_ptr(), starts.len());
    let (listed, size) = (message.as_ptr(), message.len());
    let (from, len) = (word.as_ptr(), word.len());
    // SAFETY: each pointer is a slice's own, never null, with its length; none is written to.
    unsafe { c::verify(f.into(), s, t, listed, size, from, len) }
}

/// Lays words side by side.
pub fn interleave(f: impl Into<Numbers>, depth: u32, words: &[u8], strip: &mut [u8]) -> u8 {
    let (from, len) = (words.as_ptr(), words.len());
    let (to, room) = (strip.as_mut_ptr(), strip.len());
    // SAFETY: each pointer is a slice's own, never null, with its length; the one written to is lent alone.
    unsafe { c::interleave(f.into(), depth, from, len, to, room) }
}

/// Takes a strip apart into its words.
pub fn deinterleave(f: impl Into<Numbers>, depth: u32, strip: &[u8], words: &mut [u8]) -> u8 {
    let (from, len) = (strip.as_ptr(), strip.len());
    let (to, room) = (words.as_mut_ptr(), words.len());
    // SAFETY: each pointer is a slice's own, never null, with its length; the one written to is lent alone.
    unsafe { c::deinterleave(f.into(), depth, from, len, to, room) }
}

/// The calls on a number in a table.
macro_rules! table_calls {
    ($($(#[$doc:meta])* $name:ident: $call:ident;)*) => {
        $($(#[$doc])*
        pub fn $name(table: &mut [u8], number: u32) -> u8 {
            // SAFETY: the pointer is the slice's own, never null, with its length, and lent alone.
            unsafe { c::$call(table.as_mut_ptr(), table.len(), number) }
        })*
    };
}

table_calls! {
    /// Opens a number in a table.
    open: burgzemi_open;
    /// Cancels a number.
    cancel: burgzemi_cancel;
    /// Finishes an open number.
    finish: burgzemi_finish;
    /// Takes a cancellation back.
    reinstate: burgzemi_reinstate;
    /// Puts an open number on hold.
    hold: burgzemi_hold;
    /// Makes a number on hold open again.
    release: burgzemi_release;
}

/// Writes the word of an open job.
pub fn job_write(
    f: impl Into<Numbers>,
    table: &[u8],
    starts: &[u8],
    payload: &[u8],
    word: &mut [u8],
) -> u8 {
    let (at, size) = (table.as_ptr(), table.len());
    let (s, t) = (starts.as_ptr(), starts.len());
    let (from, len) = (payload.as_ptr(), payload.len());
    let (to, room) = (word.as_mut_ptr(), word.len());
    // SAFETY: each pointer is a slice's own, never null, with its length; the one written to is lent alone.
    unsafe { c::job_write(f.into(), at, size, s, t, from, len, to, room) }
}

/// Reads the word of an open job into its payload.
pub fn job_read(f: impl Into<Numbers>, table: &[u8], word: &[u8], payload: &mut [u8]) -> u8 {
    let (at, size) = (table.as_ptr(), table.len());
    let (from, len) = (word.as_ptr(), word.len());
    let (to, room) = (payload.as_mut_ptr(), payload.len());
    // SAFETY: each pointer is a slice's own, never null, with its length; the one written to is lent alone.
    unsafe { c::job_read(f.into(), at, size, from, len, to, room) }
}

/// Moves an open job from an older tray's strip to one of Construction A.
pub fn move_to_a((n, q, m, b): Ranked, table: &[u8], strip: &[u8], moved: &mut [u8]) -> u8 {
    let (at, size) = (table.as_ptr(), table.len());
    let (from, len) = (strip.as_ptr(), strip.len());
    let (to, room) = (moved.as_mut_ptr(), moved.len());
    // SAFETY: each pointer is a slice's own, never null, with its length; the one written to is lent alone.
    unsafe { c::burgzemi_move_to_a(n, q, m, b, at, size, from, len, to, room) }
}

/// Moves an open job from a strip of Construction A to an older tray's.
pub fn move_to_larsson((n, q, m, b): Ranked, table: &[u8], strip: &[u8], moved: &mut [u8]) -> u8 {
    let (at, size) = (table.as_ptr(), table.len());
    let (from, len) = (strip.as_ptr(), strip.len());
    let (to, room) = (moved.as_mut_ptr(), moved.len());
    // SAFETY: each pointer is a slice's own, never null, with its length; the one written to is lent alone.
    unsafe { c::burgzemi_move_to_larsson(n, q, m, b, at, size, from, len, to, room) }
}

/// Transposes an eye: kind and axis come as `marks`, sphere and cylinder as `powers`.
pub fn transpose(
    (kind, sphere, cylinder, axis): EyeNumbers,
    marks: &mut [u8],
    powers: &mut [f64],
) -> u8 {
    let (to, room) = (marks.as_mut_ptr(), marks.len());
    let (also, count) = (powers.as_mut_ptr(), powers.len());
    // SAFETY: each pointer is a slice's own, never null, with its length; both are lent alone.
    unsafe { c::burgzemi_transpose(kind, sphere, cylinder, axis, to, room, also, count) }
}

/// The spherical equivalent of an eye comes as `power`.
pub fn spherical_equivalent((kind, sphere, cylinder, axis): EyeNumbers, power: &mut [f64]) -> u8 {
    let (to, room) = (power.as_mut_ptr(), power.len());
    // SAFETY: the pointer is the slice's own, never null, with its length, and lent alone.
    unsafe { c::burgzemi_spherical_equivalent(kind, sphere, cylinder, axis, to, room) }
}

/// Writes the word of an open job whose text is a prescription.
#[rustfmt::skip]
pub fn prescription_write(
    f: impl Into<Numbers>,
    table: &[u8],
    starts: &[u8],
    number: u32,
    (right, left, distance): PrescriptionNumbers,
    word: &mut [u8],
) -> u8 {
    let (at, size) = (table.as_ptr(), table.len());
    let (s, t) = (starts.as_ptr(), starts.len());
    let (to, room) = (word.as_mut_ptr(), word.len());
    // SAFETY: each pointer is a slice's own, never null, with its length; the one written to is lent alone.
    unsafe {
        c::prescription_write(
            f.into(), at, size, s, t, number,
            right.0, right.1, right.2, right.3, left.0, left.1, left.2, left.3, distance,
            to, room,
        )
    }
}

/// Reads the word of an open job whose text is a prescription. As `marks` come the job number, high byte first, and kind and axis of the right and
/// of the left eye; as `powers` sphere and cylinder of the right and of the left eye, and the pupil distance.
pub fn prescription_read(
    f: impl Into<Numbers>,
    table: &[u8],
    word: &[u8],
    marks: &mut [u8],
    powers: &mut [f64],
) -> u8 {
    let (at, size) = (table.as_ptr(), table.len());
    let (from, len) = (word.as_ptr(), word.len());
    let (to, room) = (marks.as_mut_ptr(), marks.len());
    let (also, count) = (powers.as_mut_ptr(), powers.len());
    // SAFETY: each pointer is a slice's own, never null, with its length; the two written to are lent alone.
    unsafe { c::prescription_read(f.into(), at, size, from, len, to, room, also, count) }
}
