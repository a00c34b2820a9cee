//! The night sheet: which names it takes, what it says of each file, and its totals.

use stackfilter::limits::{LONGEST_FILE, LONGEST_LIST, LONGEST_NAME};
use stackfilter::*;
use std::ffi::{OsStr, OsString};
use std::os::unix::ffi::OsStrExt;
use std::os::unix::fs::symlink;
use std::os::unix::net::UnixListener;
use std::path::{Path, PathBuf};
use std::process::Command;
use std::sync::mpsc;
use std::time::Duration;
use std::{env, fs, iter, process, thread};

const SCAN: [u16; 5] = [10, 10, 90, 10, 10];
const NOTHING: &str = "0 0 0 0 0 0 0 0 0 0 0 0 0 0\n";

/// So long a night may take before a test gives it up.
const LONGEST_NIGHT: Duration = Duration::from_secs(60);

/// A folder of its own, by its label, which is removed in the end.
struct Folder(PathBuf);

impl Folder {
    fn new(label: &str) -> Folder {
        let path = env::temp_dir().join(format!("stackfilter-{label}-{}", process::id()));
        fs::create_dir(&path).unwrap_or_else(|error| panic!("{}: {error}", path.display()));
        Folder(path)
    }

    fn path(&self, name: impl AsRef<Path>) -> PathBuf {
        self.0.join(name)
    }

    /// Puts a file into the folder.
    fn file(&self, name: impl AsRef<Path>, content: &[u8]) -> PathBuf {
        let path = self.path(name);
        fs::write(&path, content).unwrap_or_else(|error| panic!("{}: {error}", path.display()));
        path
    }
}

impl Drop for Folder {
    fn drop(&mut self) {
        fs::remove_dir_all(&self.0).unwrap();
    }
}

/// The scan file of the worked example.
fn sound() -> Vec<u8> {
    write(&preset(10).unwrap(), &SCAN).unwrap()
}

/// The sheet must have these lines.
fn assert_sheet<P: AsRef<Path>>(names: &[P], lines: &[&str]) {
    let names: Vec<PathBuf> = names.iter().map(|name| name.as_ref().to_path_buf()).collect();
    let (sender, sheet) = mpsc::channel();
    // In a thread of its own, so that a night that waits for a file fails and does not hang.
    thread::spawn(move || sender.send(night(&names)));
    let sheet = sheet.recv_timeout(LONGEST_NIGHT).expect("the night ends");
    assert_eq!(sheet.as_deref(), Ok(&*(lines.join("\n") + "\n")));
}

/// The night must go on after a file that is not opened, and the next one be cleaned.
fn assert_unopened(folder: &Folder, name: impl AsRef<Path>) {
    let next = folder.file("next", &sound());
    assert_sheet(&[name.as_ref(), &next], &["unopened", "5 1 1 80 0", "1 1 0 0 0 0 0 0 0 5 1 1 80 0"]);
}

/// The sheet of a refused list.
fn refused(number: u8, place: usize) -> Result<String, LineFeedInName> {
    Ok(format!("refused {number} {place}\n"))
}

// ---- lines and totals

#[test]
fn the_worked_example() {
    let folder = Folder::new("worked");
    let (day, damaged) = (folder.file("day.scan", &sound()), folder.file("damaged.scan", &sound()[1..]));
    assert_sheet(
        &[&day, &day, &folder.path("missing.scan"), &damaged],
        &["5 1 1 80 0", "5 1 1 80 0", "unopened", "refused 18 15", "2 1 0 0 0 0 0 0 1 10 2 2 160 0"],
    );
}

#[test]
fn every_refusal_that_a_file_can_have() {
    let folder = Folder::new("refusals");
    // The worked example with one byte changed.
    let with = |byte: usize, value: u8| {
        let mut file = sound();
        file[byte] = value;
        folder.file(byte.to_string(), &file)
    };
    let (seven, sixteen, seventeen, eighteen) = (with(12, 16), with(26, 0), with(24, 4), with(16, 27));
    let nine = folder.file("9", &[16, 0, 14, 0, 0, 0, 14, 0, 0, 0, 1, 0, 0x53, 0x46]);
    let fifteen = folder.file("15", &sound()[17..]);
    assert_sheet(
        &[&nine, &seven, &eighteen, &sixteen, &fifteen, &seventeen, &seven, &eighteen],
        &[
            "refused 9 0",
            "refused 7 1",
            "refused 18 16",
            "refused 16 26",
            "refused 15 11",
            "refused 17 20",
            "refused 7 1",
            "refused 18 16",
            "0 0 2 0 1 1 1 1 2 0 0 0 0 0",
        ],
    );
}

#[test]
fn residues_of_both_signs_and_the_largest_totals() {
    let folder = Folder::new("totals");
    let up = folder.file("up", &write(&[], &[3, 0, 9]).unwrap());
    let down = folder.file("down", &write(&[0], &[u16::MAX, 0, u16::MAX - 5]).unwrap());
    let both = folder.file("both", &write(&[24, 40, 48], &[10, 10, 90, 0, 10, 10]).unwrap());
    assert_sheet(
        &[up, down, both],
        &["3 2 2 12 0", "3 2 1 0 65540", "6 2 2 80 10", "3 0 0 0 0 0 0 0 0 12 6 5 92 65550"],
    );

    let all = folder.file("all", &write(&[], &[u16::MAX; MOST_SAMPLES]).unwrap());
    let sheet = night(vec![all; MOST_NAMES]).unwrap();
    assert_eq!(sheet.lines().last(), Some("250 0 0 0 0 0 0 0 0 4096000 4096000 250 268431360000 0"));
}

#[test]
fn the_calls_that_a_sheet_is_made_of() {
    let (file, mut totals) = (sound(), Totals::default());
    for lent in [0, LINE_BYTES - 1, LINE_BYTES + 1, TOTALS_BYTES] {
        let mut out = vec![7; lent];
        let refusal = Err(Refusal::OutputLength { needed: LINE_BYTES });
        assert_eq!(night_line_into(&file, &mut totals, &mut out), refusal);
        assert_eq!(night_unopened_into(&mut totals, &mut out), refusal);
        assert_eq!((out, totals), (vec![7; lent], Totals::default()));
    }
    let mut out = [7; LINE_BYTES];
    assert_eq!(night_line_into(&file, &mut totals, &mut out), Ok(11));
    assert_eq!((&out[..11], out[11]), (&b"5 1 1 80 0\n"[..], 7));
    assert_eq!(night_unopened_into(&mut totals, &mut out), Ok(9));
    assert_eq!(&out[..11], b"unopened\n0\n");

    let counted = Totals { cleaned: 1, unopened: 1, samples: 5, changed: 1, spikes: 1, above: 80, ..totals };
    assert_eq!(totals, counted);
    let mut last = [7; TOTALS_BYTES];
    let refusal = Err(Refusal::OutputLength { needed: TOTALS_BYTES });
    assert_eq!(night_totals_into(&totals, &mut last[1..]), refusal);
    assert_eq!(last, [7; TOTALS_BYTES]);
    assert_eq!(night_totals_into(&totals, &mut last), Ok(29));
    assert_eq!((&last[..29], last[29]), (&b"1 1 0 0 0 0 0 0 0 5 1 1 80 0\n"[..], 7));
}

#[test]
fn each_total_has_its_place_in_the_last_line() {
    let totals = Totals {
        cleaned: 1,
        unopened: 2,
        bad_term: 3,
        term_count: 4,
        scan_length: 5,
        file_length: 6,
        mark: 7,
        term_distance: 8,
        sample_distance: 9,
        samples: 10,
        changed: 11,
        spikes: 12,
        above: 13,
        below: u64::MAX,
    };
    assert_eq!(night_totals(&totals), "1 2 3 4 5 6 7 8 9 10 11 12 13 18446744073709551615\n");
    let mut more = totals;
    night_line(&sound(), &mut more);
    night_line(&write(&[0], &[u16::MAX - 1]).unwrap(), &mut more);
    let sums = Totals { cleaned: 3, samples: 16, changed: 13, spikes: 14, above: 93, below: 0, ..totals };
    assert_eq!(more, sums);
}

// ---- lists

#[test]
fn lists_are_empty_or_have_up_to_250_names() {
    assert_eq!(night::<[&str; 0]>([]).as_deref(), Ok(NOTHING));
    let folder = Folder::new("lists");
    let name = folder.file("a", &sound());
    let sheet = night(vec![&name; MOST_NAMES]).unwrap();
    assert_eq!(sheet.lines().filter(|line| *line == "5 1 1 80 0").count(), MOST_NAMES);
    assert_eq!(sheet.lines().last(), Some("250 0 0 0 0 0 0 0 0 1250 250 250 20000 0"));
    assert_eq!(night(vec![&name; MOST_NAMES + 1]), refused(20, MOST_NAMES));
    assert_eq!(night_list(&vec![b'x'; LONGEST_NAME]), Ok(1));
    assert_eq!(
        night_list(&[vec![b'x'; LONGEST_NAME], vec![b'\n']].concat().repeat(MOST_NAMES)),
        Ok(MOST_NAMES)
    );
    assert_eq!(LONGEST_LIST, 64_000);
}

#[test]
fn an_endless_list_is_refused_after_name_251() {
    let mut taken = 0;
    let endless = iter::repeat_with(|| {
        taken += 1;
        "a"
    });
    assert_eq!(night(endless), refused(20, MOST_NAMES));
    assert_eq!(taken, MOST_NAMES + 1);
}

#[test]
fn names_that_are_empty_or_too_long() {
    let longest = "x".repeat(LONGEST_NAME);
    assert_eq!(night([""]), refused(19, 1));
    assert_eq!(night(["a", "b", "", "c", ""]), refused(19, 3));
    assert_eq!(night([&longest[..], "a"]).unwrap().lines().count(), 3);
    assert_eq!(night(["a".to_string(), longest.clone() + "x"]), refused(19, 2));
    assert_eq!(night([longest.clone() + "\0"]), refused(19, 1));
    // Over 250 names come before a bad one.
    assert_eq!(night([""; MOST_NAMES + 1]), refused(20, MOST_NAMES));
    assert_eq!(night(iter::repeat("a").take(MOST_NAMES).chain([""])), refused(20, MOST_NAMES));
}

#[test]
fn a_refused_list_opens_no_file() {
    let folder = Folder::new("refused");
    // Whoever opens this pipe waits.
    let pipe = pipe(&folder);
    assert_sheet(&[pipe.as_path(), Path::new("")], &["refused 19 2"]);
    assert_sheet(&vec![pipe; MOST_NAMES + 1], &["refused 20 250"]);
}

#[test]
fn a_line_feed_is_an_error() {
    let folder = Folder::new("feeds");
    folder.file("a\nb", &sound());
    assert_eq!(night(["\n"]), Err(LineFeedInName { index: 0 }));
    assert_eq!(night([folder.path("a"), folder.path("a\nb"), "\n".into()]), Err(LineFeedInName { index: 1 }));
    assert_eq!(
        night(iter::repeat("a").take(MOST_NAMES).chain(["\n"])),
        Err(LineFeedInName { index: MOST_NAMES })
    );
    let error: Box<dyn std::error::Error> = Box::new(LineFeedInName { index: 1 });
    assert_eq!(error.to_string(), "name 1 has a line feed, which ends a line of a list");
}

// ---- names

#[test]
fn names_of_every_type() {
    let folder = Folder::new("types");
    let path = folder.file("a", &sound());
    let cleaned = "5 1 1 80 0\n1 0 0 0 0 0 0 0 0 5 1 1 80 0\n";
    let text = path.to_str().unwrap();
    assert_eq!(night([text]).as_deref(), Ok(cleaned));
    assert_eq!(night(vec![text.to_string()]).as_deref(), Ok(cleaned));
    assert_eq!(night(&[path.clone()]).as_deref(), Ok(cleaned));
    assert_eq!(night(iter::once(path.as_os_str())).as_deref(), Ok(cleaned));
    assert_eq!(night(Some(OsString::from(&path))).as_deref(), Ok(cleaned));
    assert_eq!(
        night(fs::read_dir(&folder.0).unwrap().map(|entry| entry.unwrap().path())).as_deref(),
        Ok(cleaned)
    );
}

#[test]
fn any_bytes_are_a_name() {
    let folder = Folder::new("bytes");
    let names: [&[u8]; 10] = [
        b"a name of words",
        b" a",
        b"a ",
        b"\t",
        b"day.scan\r",
        b"\xff\xfe\x80",
        "\u{e9}t\u{e9}".as_bytes(),
        b"--help",
        b"\x01\x7f",
        b"*",
    ];
    for name in names {
        let path = folder.file(OsStr::from_bytes(name), &sound());
        assert_sheet(&[path], &["5 1 1 80 0", "1 0 0 0 0 0 0 0 0 5 1 1 80 0"]);
    }
}

#[test]
fn names_stand_as_they_are() {
    let folder = Folder::new("as-they-stand");
    folder.file("day.scan", &sound());
    fs::create_dir(folder.path("sub")).unwrap();
    for name in ["./day.scan", "sub/../day.scan", "/day.scan"] {
        let name = format!("{}/{name}", folder.0.display());
        assert_sheet(&[name], &["5 1 1 80 0", "1 0 0 0 0 0 0 0 0 5 1 1 80 0"]);
    }
    for name in
        ["day.scan\r", "day.scan ", "DAY.SCAN", "day.scan/", "sub/day.scan", "day.*", "day.scan\0", "\0"]
    {
        assert_unopened(&folder, format!("{}/{name}", folder.0.display()));
    }
    let longest =
        |bytes| format!("{}/{}", folder.0.display(), "x".repeat(bytes - 1 - folder.0.as_os_str().len()));
    fs::write(longest(LONGEST_NAME), sound()).unwrap();
    assert_sheet(&[longest(LONGEST_NAME)], &["5 1 1 80 0", "1 0 0 0 0 0 0 0 0 5 1 1 80 0"]);
    assert_sheet(&[longest(LONGEST_NAME + 1)], &["refused 19 1"]);
}

#[test]
fn names_are_those_of_the_working_folder() {
    // Tests run in the package's folder, which has files that are no scan files.
    let no_mark = format!("refused 16 {}", fs::metadata("Cargo.toml").unwrap().len() - 2);
    assert_sheet(
        &["Cargo.toml", "./src/../Cargo.toml", "src", "none/Cargo.toml"],
        &[&no_mark, &no_mark, "unopened", "unopened", "0 2 0 0 0 0 2 0 0 0 0 0 0 0"],
    );
}

// ---- files

/// A pipe that nobody writes to.
fn pipe(folder: &Folder) -> PathBuf {
    let path = folder.path("pipe");
    assert!(Command::new("mkfifo").arg(&path).status().expect("mkfifo starts").success());
    path
}

#[test]
fn what_is_no_regular_file_is_not_opened() {
    let folder = Folder::new("kinds");
    let pipe = pipe(&folder);
    let socket = folder.path("socket");
    let _listener = UnixListener::bind(&socket).unwrap();
    for name in [&folder.0, &pipe, &socket] {
        assert_unopened(&folder, name);
    }
    for name in ["/", ".", "/dev/null", "/dev/zero", "/dev/tty"] {
        assert_unopened(&folder, name);
    }
    symlink(&pipe, folder.path("to-pipe")).unwrap();
    symlink("to-itself", folder.path("to-itself")).unwrap();
    symlink("next", folder.path("to-next")).unwrap();
    assert_unopened(&folder, folder.path("to-pipe"));
    assert_unopened(&folder, folder.path("to-itself"));
    assert_sheet(&[folder.path("to-next")], &["5 1 1 80 0", "1 0 0 0 0 0 0 0 0 5 1 1 80 0"]);
}

#[test]
fn what_cannot_be_opened_or_read_is_not_opened() {
    let folder = Folder::new("unread");
    assert_unopened(&folder, folder.path("missing"));
    assert_unopened(&folder, folder.path("next/missing"));
    // The memory of this process: a regular file that opens, and of which nothing stands at the address 0.
    assert!(fs::metadata("/proc/self/mem").unwrap().is_file());
    assert!(fs::File::open("/proc/self/mem").is_ok());
    assert_unopened(&folder, "/proc/self/mem");
}

/// Cuts a file, or lengthens it by 0 bytes that take no room on the disk.
fn set_length(path: &Path, bytes: u64) {
    fs::OpenOptions::new().write(true).open(path).unwrap().set_len(bytes).unwrap();
}

#[test]
fn a_file_over_the_limit_is_refused_with_its_whole_length() {
    let folder = Folder::new("limit");
    let every = compile(&recipe(&[Step::Signal, Step::Median(511)])).unwrap();
    let longest = write(&every, &[7; MOST_SAMPLES]).unwrap();
    assert_eq!(longest.len(), LONGEST_FILE);
    let names = [
        folder.file("longest", &longest),
        folder.file("longer", &[&longest[..], &[0]].concat()),
        folder.file("twice", &longest.repeat(2)),
        folder.file("over 32 bits", &longest),
        folder.file("huge", &longest),
    ];
    set_length(&names[3], 5_000_000_000);
    set_length(&names[4], 10_000_000_000);
    assert_sheet(
        &names,
        &[
            "16384 0 0 0 0",
            "refused 15 33033",
            "refused 15 66064",
            "refused 15 5000000000",
            "refused 15 10000000000",
            "1 0 0 0 0 4 0 0 0 16384 0 0 0 0",
        ],
    );
}

#[test]
fn a_file_that_the_system_says_is_shorter_than_what_was_read() {
    // The environment of a process: a regular file of length 0, the system says, with many bytes to read.
    let mut sleeper = Command::new("sleep").arg("60").env("LONG", "x".repeat(LONGEST_FILE)).spawn().unwrap();
    let path = format!("/proc/{}/environ", sleeper.id());
    // Until the process stands it is empty, or this process's own.
    while fs::read(&path).unwrap().len() <= LONGEST_FILE {
        thread::sleep(Duration::from_millis(1));
    }
    assert_eq!(fs::metadata(&path).unwrap().len(), 0);
    let sheet = night([path]);
    sleeper.kill().unwrap();
    sleeper.wait().unwrap();
    assert_eq!(sheet.as_deref(), Ok("refused 15 33033\n0 0 0 0 0 1 0 0 0 0 0 0 0 0\n"));
}

#[test]
fn a_file_that_does_not_say_where_it_ends_is_read_to_its_end() {
    let path = "/proc/kallsyms";
    let bytes = fs::read(path).map_or(0, |file| file.len());
    if bytes > LONGEST_FILE {
        assert_sheet(&[path], &[&format!("refused 15 {bytes}"), "0 0 0 0 0 1 0 0 0 0 0 0 0 0"]);
    }
}

#[test]
fn a_file_that_is_cut_and_lengthened_meanwhile() {
    const NIGHTS: usize = 40;
    let folder = Folder::new("meanwhile");
    let path = folder.file("a", &sound());
    let (shortest, longest) = (sound().len(), LONGEST_FILE);
    let sheets = thread::scope(|scope| {
        let nights = scope.spawn(|| {
            let sheet = |_| night(vec![&path; MOST_NAMES]).unwrap();
            (0..NIGHTS).map(sheet).collect::<Vec<String>>()
        });
        while !nights.is_finished() {
            for bytes in [5_000_000_000, shortest, longest, longest + 1] {
                set_length(&path, bytes as u64);
            }
        }
        nights.join().unwrap()
    });
    // Behind the worked example stand 0 bytes, however many are read.
    let no_mark_at = shortest - 1..longest - 1;
    for sheet in sheets {
        let (mut cleaned, mut too_long, mut no_mark) = (0, 0, 0);
        let lines: Vec<&str> = sheet.lines().collect();
        for line in &lines[..MOST_NAMES] {
            match line.split(' ').collect::<Vec<&str>>()[..] {
                ["5", "1", "1", "80", "0"] => cleaned += 1,
                // As long as it was once, or as what was read of it before it was cut.
                ["refused", "15", "5000000000" | "33033"] => too_long += 1,
                ["refused", "16", byte] if no_mark_at.contains(&byte.parse().unwrap()) => no_mark += 1,
                _ => panic!("no line of this file is {line:?}"),
            }
        }
        let (samples, above) = (5 * cleaned, 80 * cleaned);
        let last =
            format!("{cleaned} 0 0 0 0 {too_long} {no_mark} 0 0 {samples} {cleaned} {cleaned} {above} 0");
        assert_eq!(lines[MOST_NAMES..], [last]);
    }
}
