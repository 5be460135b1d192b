//! The proved decoder, builder and speaker, through the static library of bench/library.

use crate::corpus::Datagram;

extern "C" {
    fn babel_bench_decode(
        bytes: *const u8,
        bytes_len: usize,
        source: *const u8,
        source_len: usize,
    ) -> usize;
    fn babel_bench_decode_kept(
        bytes: *const u8,
        bytes_len: usize,
        source: *const u8,
        source_len: usize,
        turns: usize,
    ) -> usize;
    fn babel_bench_text(
        bytes: *const u8,
        bytes_len: usize,
        source: *const u8,
        source_len: usize,
        text: *mut u8,
        text_len: usize,
    ) -> usize;
    fn babel_bench_build(
        bytes: *const u8,
        bytes_len: usize,
        source: *const u8,
        source_len: usize,
        turns: usize,
        built: *mut u8,
        built_len: usize,
    ) -> usize;
    fn babel_bench_run(
        setup: *const u8,
        setup_len: usize,
        turn: *const u8,
        turn_len: usize,
        turns: usize,
    ) -> u64;
}

/// Decodes the datagram, and returns the offset of the last TLV.
#[inline(always)]
pub fn decode(datagram: &Datagram) -> usize {
    let (bytes, source) = (&datagram.bytes, &datagram.source_octets);
    // SAFETY: the pointers and lengths are those of two slices.
    unsafe { babel_bench_decode(bytes.as_ptr(), bytes.len(), source.as_ptr(), source.len()) }
}

/// Decodes the datagram this many times into one list that is kept, and returns the offset of the
/// last TLV.
pub fn decode_kept(datagram: &Datagram, turns: usize) -> usize {
    let (bytes, source) = (&datagram.bytes, &datagram.source_octets);
    // SAFETY: the pointers and lengths are those of two slices.
    unsafe {
        babel_bench_decode_kept(
            bytes.as_ptr(),
            bytes.len(),
            source.as_ptr(),
            source.len(),
            turns,
        )
    }
}

/// What the datagram means, a line for each TLV, or the refusal.
pub fn text(datagram: &Datagram) -> String {
    let (bytes, source) = (&datagram.bytes, &datagram.source_octets);
    // No place takes more octets of text than this, and each takes at least one of the datagram.
    let mut text = vec![0; 300 * (bytes.len() + 1)];
    // SAFETY: the pointers and lengths are those of three slices.
    let len = unsafe {
        babel_bench_text(
            bytes.as_ptr(),
            bytes.len(),
            source.as_ptr(),
            source.len(),
            text.as_mut_ptr(),
            text.len(),
        )
    };
    text.truncate(len);
    String::from_utf8(text).expect("the text is ASCII")
}

/// Builds a datagram of the messages of the datagram this many times over, and returns the length
/// of the last one, which is written.
pub fn build(datagram: &Datagram, turns: usize, built: &mut [u8]) -> usize {
    let (bytes, source) = (&datagram.bytes, &datagram.source_octets);
    // SAFETY: the pointers and lengths are those of three slices.
    unsafe {
        babel_bench_build(
            bytes.as_ptr(),
            bytes.len(),
            source.as_ptr(),
            source.len(),
            turns,
            built.as_mut_ptr(),
            built.len(),
        )
    }
}

/// Makes a speaker take the steps of `setup` once, and those of `turn` this many times. Returns a
/// sum over the notes and the datagrams that are sent.
pub fn run_speaker(setup: &[u8], turn: &[u8], turns: usize) -> u64 {
    // SAFETY: the pointers and lengths are those of two slices.
    unsafe {
        babel_bench_run(
            setup.as_ptr(),
            setup.len(),
            turn.as_ptr(),
            turn.len(),
            turns,
        )
    }
}
