//! The proved port as a safe Rust library, over its C boundary. `ad9959.h` has the same functions for C.
/// The C functions as they are.
pub mod sys {
    // By hand, from crates/boundary_c/src. A slice is a pointer and a length. tests/calls.rs calls each.
    unsafe extern "C" {
        pub safe fn ad9959_push(mode: u32, length: &mut usize, bytes: &mut [u8; 32], mask: u32, presence: u32, word: i32, phase: u32, acr: u32) -> u32;
        pub unsafe fn ad9959_finalize(mode: u32, length: &mut usize, bytes: &mut [u8; 32], words: *mut u32, words_length: usize, count: &mut usize) -> u32;
        pub unsafe fn ad9959_decode(bytes: *const u8, bytes_length: usize, addresses: *mut u32, addresses_length: usize, values: *mut u32, values_length: usize, count: &mut usize) -> u32;
        pub unsafe fn ad9959_encode(addresses: *const u32, addresses_length: usize, values: *const u32, values_length: usize, count: usize, bytes: *mut u8, bytes_length: usize, length: &mut usize) -> u32;
        pub unsafe fn ad9959_feed(bytes: *const u8, bytes_length: usize, image: *mut u32, image_length: usize) -> u32;
        pub safe fn ad9959_clock(reference: f32, multiplier: u32, system: &mut f32, vco: &mut u32, ratio: &mut f32) -> u32;
        pub safe fn ad9959_frequency(ratio: f32, frequency: f32, word: &mut u32, achieved: &mut f32) -> u32;
        pub safe fn ad9959_phase(phase: f32, word: &mut u32, achieved: &mut f32) -> u32;
        pub safe fn ad9959_amplitude(amplitude: f32, acr: &mut u32, achieved: &mut f32) -> u32;
        pub safe fn ad9959_read_frequency(ratio: f32, word: u32, value: &mut f32) -> u32;
        pub safe fn ad9959_read_phase(word: u32, value: &mut f32) -> u32;
        pub safe fn ad9959_read_amplitude(acr: u32, value: &mut f32) -> u32;
    }
}

/// A refusal's number, 1 to 13.
#[derive(Copy, Clone, Debug, PartialEq, Eq)]
pub struct Refusal(pub u32);

pub const NAMES: [&str; 14] = ["Ok", "Interface", "Check", "Bounds", "Pin", "Frequency", "Mask", "Mode", "Word", "Room", "Address", "Short", "NotReady", "Over"];

impl std::fmt::Display for Refusal {
    fn fmt(&self, f: &mut std::fmt::Formatter<'_>) -> std::fmt::Result {
        write!(f, "{} {}", self.0, NAMES.get(self.0 as usize).unwrap_or(&"?"))
    }
}

fn answer<T>(number: u32, value: T) -> Result<T, Refusal> {
    if number == 0 { Ok(value) } else { Err(Refusal(number)) }
}

/// A profile so far: the bytes below the length are meant.
#[derive(Copy, Clone, Debug, PartialEq, Eq)]
pub struct Profile {
    pub mode: u32,
    pub length: usize,
    pub bytes: [u8; 32],
}

impl Profile {
    pub const fn new(mode: u32) -> Self {
        Profile { mode, length: 0, bytes: [0; 32] }
    }

    /// The fields as numbers: bits 0, 1, 2 of presence say which are given.
    #[inline]
    pub fn push_numbers(&mut self, mask: u32, presence: u32, word: i32, phase: u32, acr: u32) -> Result<(), Refusal> {
        answer(sys::ad9959_push(self.mode, &mut self.length, &mut self.bytes, mask, presence, word, phase, acr), ())
    }

    pub fn push(&mut self, mask: u32, word: Option<i32>, phase: Option<u32>, acr: Option<u32>) -> Result<(), Refusal> {
        let presence = word.is_some() as u32 + 2 * phase.is_some() as u32 + 4 * acr.is_some() as u32;
        self.push_numbers(mask, presence, word.unwrap_or(0), phase.unwrap_or(0), acr.unwrap_or(0))
    }

    /// How many words were handed out.
    #[inline]
    pub fn finalize(&mut self, words: &mut [u32]) -> Result<usize, Refusal> {
        let mut count = 0;
        // SAFETY: the pointer and the length are one slice's.
        let n = unsafe { sys::ad9959_finalize(self.mode, &mut self.length, &mut self.bytes, words.as_mut_ptr(), words.len(), &mut count) };
        answer(n, count)
    }
}

/// How many writes a stream has; their addresses and values go to the two lists.
pub fn decode(bytes: &[u8], addresses: &mut [u32], values: &mut [u32]) -> Result<usize, Refusal> {
    let mut count = 0;
    // SAFETY: each pointer and length are one slice's, and two `&mut` slices do not overlap.
    let n = unsafe { sys::ad9959_decode(bytes.as_ptr(), bytes.len(), addresses.as_mut_ptr(), addresses.len(), values.as_mut_ptr(), values.len(), &mut count) };
    answer(n, count)
}

/// How many bytes the first `count` writes take.
pub fn encode(addresses: &[u32], values: &[u32], count: usize, bytes: &mut [u8]) -> Result<usize, Refusal> {
    let mut length = 0;
    // SAFETY: each pointer and length are one slice's.
    let n = unsafe { sys::ad9959_encode(addresses.as_ptr(), addresses.len(), values.as_ptr(), values.len(), count, bytes.as_mut_ptr(), bytes.len(), &mut length) };
    answer(n, length)
}

pub fn feed(bytes: &[u8], image: &mut [u32]) -> Result<(), Refusal> {
    // SAFETY: each pointer and length are one slice's.
    answer(unsafe { sys::ad9959_feed(bytes.as_ptr(), bytes.len(), image.as_mut_ptr(), image.len()) }, ())
}

#[derive(Copy, Clone, Debug, PartialEq)]
pub struct Clock {
    pub system: f32,
    pub vco: u32,
    pub ratio: f32,
}

pub fn clock(reference: f32, multiplier: u32) -> Result<Clock, Refusal> {
    let mut c = Clock { system: 0.0, vco: 0, ratio: 0.0 };
    let n = sys::ad9959_clock(reference, multiplier, &mut c.system, &mut c.vco, &mut c.ratio);
    answer(n, c)
}

/// A register's word, and the value that it achieves.
#[derive(Copy, Clone, Debug, PartialEq)]
pub struct Setting {
    pub word: u32,
    pub achieved: f32,
}

#[inline]
fn setting(f: impl FnOnce(&mut u32, &mut f32) -> u32) -> Result<Setting, Refusal> {
    let mut s = Setting { word: 0, achieved: 0.0 };
    let n = f(&mut s.word, &mut s.achieved);
    answer(n, s)
}

#[inline]
fn reading(f: impl FnOnce(&mut f32) -> u32) -> Result<f32, Refusal> {
    let mut x = 0.0;
    let n = f(&mut x);
    answer(n, x)
}

#[inline]
pub fn frequency(ratio: f32, frequency: f32) -> Result<Setting, Refusal> {
    setting(|w, a| sys::ad9959_frequency(ratio, frequency, w, a))
}

#[inline]
pub fn phase(phase: f32) -> Result<Setting, Refusal> {
    setting(|w, a| sys::ad9959_phase(phase, w, a))
}

#[inline]
pub fn amplitude(amplitude: f32) -> Result<Setting, Refusal> {
    setting(|w, a| sys::ad9959_amplitude(amplitude, w, a))
}

#[inline]
pub fn read_frequency(ratio: f32, word: u32) -> Result<f32, Refusal> {
    reading(|x| sys::ad9959_read_frequency(ratio, word, x))
}

#[inline]
pub fn read_phase(word: u32) -> Result<f32, Refusal> {
    reading(|x| sys::ad9959_read_phase(word, x))
}

#[inline]
pub fn read_amplitude(acr: u32) -> Result<f32, Refusal> {
    reading(|x| sys::ad9959_read_amplitude(acr, x))
}
