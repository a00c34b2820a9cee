//! An input that is too long is refused before an output is made for it: no call that refuses one asks
//! for more memory than the largest answer takes. Nor does a night for a file or a list that is too long.

use stackfilter::limits::{LONGEST_FILE, LONGEST_LIST};
use stackfilter::*;
use std::alloc::{GlobalAlloc, Layout, System};
use std::mem::size_of;
use std::sync::atomic::{AtomicUsize, Ordering};
use std::{env, fs, process};

/// The system's allocator, which keeps the largest size that it was asked for.
struct Watched;

static LARGEST: AtomicUsize = AtomicUsize::new(0);

unsafe impl GlobalAlloc for Watched {
    unsafe fn alloc(&self, layout: Layout) -> *mut u8 {
        LARGEST.fetch_max(layout.size(), Ordering::Relaxed);
        System.alloc(layout)
    }

    unsafe fn alloc_zeroed(&self, layout: Layout) -> *mut u8 {
        LARGEST.fetch_max(layout.size(), Ordering::Relaxed);
        System.alloc_zeroed(layout)
    }

    unsafe fn dealloc(&self, memory: *mut u8, layout: Layout) {
        System.dealloc(memory, layout)
    }
}

#[global_allocator]
static ALLOCATOR: Watched = Watched;

/// What a call gives, and the largest size that it asked for.
fn watch<T>(call: impl FnOnce() -> T) -> (T, usize) {
    LARGEST.store(0, Ordering::Relaxed);
    let given = call();
    (given, LARGEST.load(Ordering::Relaxed))
}

// One test alone: another thread's would be watched too.
#[test]
fn what_is_too_long_costs_no_output() {
    let (scan, recipe) = (vec![7; 100 * MOST_SAMPLES], recipe(&[Step::Signal]));
    let too_long = Refusal::ScanLength { samples: scan.len() };
    let largest_answer = MOST_SAMPLES * size_of::<i32>();

    let (longest, asked) = watch(|| residue(&[16], &scan[..MOST_SAMPLES]));
    assert_eq!((longest.map(|out| out.len()), asked), (Ok(MOST_SAMPLES), largest_answer));

    let refused = |call: &dyn Fn() -> Option<Refusal>, refusal: Refusal| {
        let (given, asked) = watch(call);
        assert_eq!(given, Some(refusal));
        assert!(asked <= largest_answer, "{refusal}: {asked} bytes");
    };
    refused(&|| clean(&[16], &scan).err(), too_long);
    refused(&|| residue(&[16], &scan).err(), too_long);
    refused(&|| run_recipe(&recipe, &scan).err(), too_long);
    refused(&|| write(&[16], &scan).err(), too_long);

    // What comes before 9 in a call's order still comes first.
    let unsorted = Refusal::BadTerm { index: 1 };
    refused(&|| clean(&[24, 16], &scan).err(), unsorted);
    refused(&|| write(&[24, 16], &scan).err(), unsorted);
    refused(&|| write(&scan, &scan).err(), unsorted);

    let file = vec![7; 100 * LONGEST_FILE];
    refused(&|| read(&file).err(), Refusal::FileLength { bytes: file.len() });

    // A night reads no more of a file than tells that it is too long, and takes no more names than tell that
    // they are too many.
    let path = env::temp_dir().join(format!("stackfilter-memory-{}", process::id()));
    fs::write(&path, &file).unwrap();
    for bytes in [file.len() as u64, 10_000_000_000] {
        fs::OpenOptions::new().write(true).open(&path).unwrap().set_len(bytes).unwrap();
        let (sheet, asked) = watch(|| night(vec![&path; 3]));
        assert_eq!(sheet.unwrap().lines().next(), Some(&*format!("refused 15 {bytes}")));
        assert!(asked <= 2 * LONGEST_FILE, "{asked} bytes");
    }
    fs::remove_file(&path).unwrap();
    let (sheet, asked) = watch(|| night(std::iter::repeat("a name")));
    assert_eq!(sheet.as_deref(), Ok("refused 20 250\n"));
    assert!(asked <= 2 * LONGEST_LIST, "{asked} bytes");
}
