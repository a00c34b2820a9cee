//! The night sheet: one line a file, then a last line with the totals.

use crate::limits::{LINE_BYTES, LONGEST_FILE, MOST_NAMES, TOTALS, TOTALS_BYTES};
use crate::{answer, raw, text_by, Refusal};
use std::error::Error;
use std::fmt;
use std::fs::{self, File};
use std::io::{self, Read, Seek, SeekFrom};
use std::mem::size_of;
use std::os::unix::ffi::OsStrExt;
use std::path::Path;

const LINE_FEED: u8 = b'\n';

/// The sheet that the program `night` prints for the list of these names, each on a line of its own.
///
/// A name is opened as it stands, from the working folder; each file is closed before the next is opened. A
/// file has one line, in the order of the names: its five counts ([`Counts`](crate::Counts)); or `refused`,
/// the number and the place; or `unopened`, where it cannot be opened or read, is no regular file (a folder, a
/// pipe, a device), or has a 0 byte in its name. A file over [`LONGEST_FILE`] is refused under 15 with its whole
/// length, as the system gives it, and no more is read of it than tells that. A name that is not UTF-8 is opened
/// too, which the program cannot do. The last line is the totals ([`Totals`]).
///
/// A refused list of names opens no file and gives one line: `refused 20 250` where there are over
/// [`MOST_NAMES`] names, of which only the first 251 are taken; otherwise `refused 19` and the first name,
/// from 1, that is empty or has over 255 bytes. The one error is a name that no list can have.
///
/// ```
/// use stackfilter::{night, LineFeedInName};
/// assert_eq!(night(["none.scan", "none.scan"])?, "unopened\nunopened\n0 2 0 0 0 0 0 0 0 0 0 0 0 0\n");
/// assert_eq!(night(["none.scan", ""])?, "refused 19 2\n");
/// assert_eq!(night(std::iter::repeat("none.scan"))?, "refused 20 250\n");
/// assert_eq!(night(["a", "b\n"]), Err(LineFeedInName { index: 1 }));
/// # Ok::<(), LineFeedInName>(())
/// ```
pub fn night<I>(names: I) -> Result<String, LineFeedInName>
where
    I: IntoIterator,
    I::Item: AsRef<Path>,
{
    // Where there are more names than a list has, one more is enough: the list is refused, whatever follows.
    let names: Vec<I::Item> = names.into_iter().take(MOST_NAMES + 1).collect();
    if let Err(refusal) = night_list(&list_of(&names)?) {
        return Ok(refused(refusal));
    }
    let mut totals = Totals::default();
    let lines: String = names.iter().map(|name| line_of(name.as_ref(), &mut totals)).collect();
    Ok(lines + &night_totals(&totals))
}

/// A name has a line feed, so it cannot stand on a line of a list.
#[derive(Clone, Copy, Debug, PartialEq, Eq, Hash)]
pub struct LineFeedInName {
    /// The first such name, from 0.
    pub index: usize,
}

impl fmt::Display for LineFeedInName {
    fn fmt(&self, f: &mut fmt::Formatter) -> fmt::Result {
        write!(f, "name {} has a line feed, which ends a line of a list", self.index)
    }
}

impl Error for LineFeedInName {}

/// The names as a list, one to a line.
fn list_of(names: &[impl AsRef<Path>]) -> Result<Vec<u8>, LineFeedInName> {
    let mut list = Vec::new();
    for (index, name) in names.iter().enumerate() {
        let name = name.as_ref().as_os_str().as_bytes();
        if name.contains(&LINE_FEED) {
            return Err(LineFeedInName { index });
        }
        list.extend_from_slice(name);
        list.push(LINE_FEED);
    }
    Ok(list)
}

/// The line of a refusal, of a list or of a file.
fn refused(refusal: Refusal) -> String {
    format!("refused {} {}\n", refusal.number(), refusal.place())
}

/// The line of a file, which the totals take in.
fn line_of(name: &Path, totals: &mut Totals) -> String {
    match content_of(name) {
        Ok(Some(Content::Whole(file))) => night_line(&file, totals),
        Ok(Some(Content::TooLong { bytes })) => {
            totals.file_length += 1;
            refused(Refusal::FileLength { bytes })
        }
        Ok(None) | Err(_) => night_unopened(totals),
    }
}

/// What a file holds: all of it, or of one that is too long its length, which is all that its line tells.
enum Content {
    Whole(Vec<u8>),
    TooLong { bytes: usize },
}

/// Reads a file; of one that is too long one byte more than the longest has, which tells that. Nothing where it is
/// no regular file: that is looked at before it is opened, since whoever opens a pipe waits for its other end.
fn content_of(name: &Path) -> io::Result<Option<Content>> {
    if !fs::metadata(name)?.is_file() {
        return Ok(None);
    }
    let file = File::open(name)?;
    let mut start = Vec::new();
    (&file).take(LONGEST_FILE as u64 + 1).read_to_end(&mut start)?;
    if start.len() <= LONGEST_FILE {
        return Ok(Some(Content::Whole(start)));
    }
    let bytes = start.len() as u64;
    let bytes = match (&file).seek(SeekFrom::End(0)) {
        // One that was cut meanwhile is as long as what was read.
        Ok(end) => end.max(bytes),
        // A file of the system's own, as those under /proc, may not say where it ends.
        Err(_) => bytes + io::copy(&mut &file, &mut io::sink())?,
    };
    Ok(Some(Content::TooLong { bytes: bytes as usize }))
}

/// The numbers of the night sheet's last line, in its order.
#[derive(Clone, Copy, Debug, Default, PartialEq, Eq)]
#[repr(C)]
pub struct Totals {
    /// The files that were cleaned.
    pub cleaned: u64,
    /// The files that were not opened.
    pub unopened: u64,
    /// The files refused under 7.
    pub bad_term: u64,
    /// The files refused under 8.
    pub term_count: u64,
    /// The files refused under 9.
    pub scan_length: u64,
    /// The files refused under 15.
    pub file_length: u64,
    /// The files refused under 16.
    pub mark: u64,
    /// The files refused under 17.
    pub term_distance: u64,
    /// The files refused under 18.
    pub sample_distance: u64,
    /// The samples of the cleaned files.
    pub samples: u64,
    /// Their changed samples.
    pub changed: u64,
    /// Their spikes.
    pub spikes: u64,
    /// The total of their positive residues.
    pub above: u64,
    /// The total of their negative residues, with the sign dropped.
    pub below: u64,
}

// What C is given is these numbers where they stand.
const _: () = assert!(size_of::<Totals>() == size_of::<[u64; TOTALS]>());

/// Checks a list of file names, one to a line, the last line feed optional: the number of its names.
///
/// Refuses 20, 19.
///
/// ```
/// use stackfilter::{night_list, Refusal};
/// assert_eq!(night_list(b"day.scan\nnight.scan"), Ok(2));
/// assert_eq!(night_list(b"day.scan\n\nnight.scan\n"), Err(Refusal::BadName { line: 2 }));
/// assert_eq!(night_list(&[b'\n'; 251]), Err(Refusal::NameCount));
/// ```
pub fn night_list(text: &[u8]) -> Result<usize, Refusal> {
    // Safety, here and in every call below: each pointer and length are those of a slice, the totals lie in
    // memory as C's array does, and what is written is borrowed for it alone.
    answer(|value| unsafe { raw::sf_night_list(text.as_ptr(), text.len(), value) })
}

/// The line of a file that was read, with the line feed at its end. The totals take the file in, each modulo
/// 2^64. It refuses no file: the line of a refused file is `refused`, the number and the place. `file` is all of
/// it: of one that is too long, the length in the line is that of the slice.
///
/// ```
/// use stackfilter::{night_line, night_totals, night_unopened, write, Totals};
/// let file = write(&[24, 40, 48], &[10, 10, 90, 10, 10])?;
/// let mut totals = Totals::default();
/// assert_eq!(night_line(&file, &mut totals), "5 1 1 80 0\n");
/// assert_eq!(night_line(&file[1..], &mut totals), "refused 18 15\n");
/// assert_eq!(night_unopened(&mut totals), "unopened\n");
/// assert_eq!((totals.cleaned, totals.unopened, totals.sample_distance), (1, 1, 1));
/// assert_eq!(night_totals(&totals), "1 1 0 0 0 0 0 0 1 5 1 1 80 0\n");
/// # Ok::<(), stackfilter::Refusal>(())
/// ```
pub fn night_line(file: &[u8], totals: &mut Totals) -> String {
    text_by::<LINE_BYTES>(|out| night_line_into(file, totals, out))
}

/// Writes the line of a file that was read to the start of `out`, which has [`LINE_BYTES`], and gives the
/// line's length. The totals take the file in; where the call is refused they stay as they are.
///
/// Refuses 10.
pub fn night_line_into(file: &[u8], totals: &mut Totals, out: &mut [u8]) -> Result<usize, Refusal> {
    let numbers: *mut Totals = totals;
    answer(|value| unsafe {
        raw::sf_night_line(file.as_ptr(), file.len(), numbers.cast(), out.as_mut_ptr(), out.len(), value)
    })
}

/// The line of a file that could not be opened or read, with the line feed at its end. The totals take the
/// file in, as those of [`night_line`] do.
pub fn night_unopened(totals: &mut Totals) -> String {
    text_by::<LINE_BYTES>(|out| night_unopened_into(totals, out))
}

/// Writes the line of a file that could not be opened or read to the start of `out`, which has
/// [`LINE_BYTES`], and gives the line's length. The totals take the file in; where the call is refused they
/// stay as they are.
///
/// Refuses 10.
pub fn night_unopened_into(totals: &mut Totals, out: &mut [u8]) -> Result<usize, Refusal> {
    let numbers: *mut Totals = totals;
    answer(|value| unsafe { raw::sf_night_unopened(numbers.cast(), out.as_mut_ptr(), out.len(), value) })
}

/// The night sheet's last line, with the line feed at its end: the totals in their order.
///
/// ```
/// assert_eq!(stackfilter::night_totals(&stackfilter::Totals::default()), "0 0 0 0 0 0 0 0 0 0 0 0 0 0\n");
/// ```
pub fn night_totals(totals: &Totals) -> String {
    text_by::<TOTALS_BYTES>(|out| night_totals_into(totals, out))
}

/// Writes the night sheet's last line to the start of `out`, which has [`TOTALS_BYTES`], and gives the line's
/// length.
///
/// Refuses 10.
pub fn night_totals_into(totals: &Totals, out: &mut [u8]) -> Result<usize, Refusal> {
    let numbers: *const Totals = totals;
    answer(|value| unsafe { raw::sf_night_totals(numbers.cast(), out.as_mut_ptr(), out.len(), value) })
}
