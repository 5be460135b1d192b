//! The peak heap of one `decode`, as a multiple of the list that it returns.
//!
//! `memory CORPUS` counts what both decoders take from the C library's `malloc`, in octets as it
//! rounds them up. While a block grows, the old one and the new one both count.

use babel_bench::corpus::{self, Datagram};
use babel_bench::plain::Placed;
use babel_bench::{plain_calls, proved};
use std::ffi::c_void;
use std::process::ExitCode;
use std::sync::atomic::{AtomicUsize, Ordering::Relaxed};

extern "C" {
    fn __libc_malloc(size: usize) -> *mut c_void;
    fn __libc_realloc(block: *mut c_void, size: usize) -> *mut c_void;
    fn __libc_free(block: *mut c_void);
    fn malloc_usable_size(block: *mut c_void) -> usize;
}

/// What is taken now, and the most that ever was since the last `start`.
static TAKEN: AtomicUsize = AtomicUsize::new(0);
static PEAK: AtomicUsize = AtomicUsize::new(0);
static CALLS: AtomicUsize = AtomicUsize::new(0);

fn count(block: *mut c_void) -> *mut c_void {
    // SAFETY: the block comes from the C library, or is null.
    let size = unsafe { malloc_usable_size(block) };
    PEAK.fetch_max(TAKEN.fetch_add(size, Relaxed) + size, Relaxed);
    CALLS.fetch_add(1, Relaxed);
    block
}

fn uncount(size: usize) {
    TAKEN.fetch_sub(size, Relaxed);
}

/// In place of the C library's, for this program and all that it links.
///
/// # Safety
/// That of C's `malloc`.
#[no_mangle]
pub unsafe extern "C" fn malloc(size: usize) -> *mut c_void {
    count(__libc_malloc(size))
}

/// # Safety
/// That of C's `realloc`.
#[no_mangle]
pub unsafe extern "C" fn realloc(block: *mut c_void, size: usize) -> *mut c_void {
    let old = malloc_usable_size(block);
    let new = count(__libc_realloc(block, size));
    uncount(old);
    new
}

/// # Safety
/// That of C's `free`.
#[no_mangle]
pub unsafe extern "C" fn free(block: *mut c_void) {
    uncount(malloc_usable_size(block));
    __libc_free(block);
}

/// The peak heap of one call, and how often it asked for memory.
fn peak_of(decode: impl Fn(&Datagram) -> usize, datagram: &Datagram) -> (usize, usize) {
    let (taken, calls) = (TAKEN.load(Relaxed), CALLS.load(Relaxed));
    PEAK.store(taken, Relaxed);
    decode(datagram);
    (PEAK.load(Relaxed) - taken, CALLS.load(Relaxed) - calls)
}

/// Sums over the datagrams, and the greatest multiple.
#[derive(Default)]
struct Peaks {
    peak: usize,
    list: usize,
    calls: usize,
    greatest: f64,
}

impl Peaks {
    fn add(&mut self, list: usize, (peak, calls): (usize, usize)) {
        self.peak += peak;
        self.list += list;
        self.calls += calls;
        if list > 0 {
            self.greatest = self.greatest.max(peak as f64 / list as f64);
        }
    }

    fn print(&self, name: &str, count: usize) {
        println!(
            "{name:6} peak heap {:.2} times the list over all datagrams, {:.2} times at most, {:.2} calls a datagram",
            self.peak as f64 / self.list as f64,
            self.greatest,
            self.calls as f64 / count as f64
        );
    }
}

fn main() -> ExitCode {
    let Some(path) = std::env::args().nth(1) else {
        eprintln!("usage: memory CORPUS");
        return ExitCode::FAILURE;
    };
    let datagrams = match corpus::read(&path) {
        Ok(datagrams) => datagrams,
        Err(why) => {
            eprintln!("memory: {why}");
            return ExitCode::FAILURE;
        }
    };
    let (mut proved_peaks, mut plain_peaks) = (Peaks::default(), Peaks::default());
    for datagram in &datagrams {
        let places = proved::text(datagram).lines().count();
        let list = places * size_of::<Placed>();
        proved_peaks.add(list, peak_of(proved::decode, datagram));
        plain_peaks.add(list, peak_of(plain_calls::decode, datagram));
    }
    println!("a place of the list takes {} octets", size_of::<Placed>());
    proved_peaks.print("proved", datagrams.len());
    plain_peaks.print("plain", datagrams.len());
    ExitCode::SUCCESS
}
