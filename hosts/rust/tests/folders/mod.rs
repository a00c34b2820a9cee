//! Folders of random files, and lists of names in them. What a name stands for is kept beside the folder, so
//! that nothing needs to be opened to know it.

use crate::independent::limits::LONGEST_NAME;
use crate::inputs::Random;
use std::collections::BTreeMap;
use std::ffi::OsStr;
use std::os::unix::ffi::OsStrExt;
use std::os::unix::fs::symlink;
use std::path::{Path, PathBuf};
use std::process::Command;
use std::sync::atomic::{AtomicU32, Ordering};
use std::{env, fs, process};

/// A folder of its own, which is removed in the end, and what is read of each file in it.
#[derive(Debug)]
pub struct Folder {
    path: PathBuf,
    files: BTreeMap<Vec<u8>, Option<Vec<u8>>>,
}

static FOLDERS: AtomicU32 = AtomicU32::new(0);

impl Folder {
    /// A folder of a few files: sound, damaged, too long, or none that is opened.
    pub fn new(random: &mut Random) -> Folder {
        let number = FOLDERS.fetch_add(1, Ordering::Relaxed);
        let path = env::temp_dir().join(format!("stackfilter-night-{}-{number}", process::id()));
        fs::create_dir(&path).unwrap_or_else(|error| panic!("{}: {error}", path.display()));
        let mut folder = Folder { path, files: BTreeMap::new() };
        for _ in 0..random.between(1, 8) {
            folder.add(random);
        }
        folder
    }

    fn add(&mut self, random: &mut Random) {
        let mut name = [self.path.as_os_str().as_bytes(), b"/", &random.file_name()].concat();
        if random.once_in(8) {
            // The longest name that a list may have, or one byte more.
            name.resize(LONGEST_NAME + random.below(2), b'x');
        }
        if self.files.contains_key(&name) {
            return;
        }
        let content = self.make(random, Path::new(OsStr::from_bytes(&name)));
        self.files.insert(name, content);
    }

    /// Makes a file of any sort, and gives what is read of it.
    fn make(&self, random: &mut Random, path: &Path) -> Option<Vec<u8>> {
        let content = match random.below(16) {
            0 => random.file_over_its_limit(),
            1 => {
                fs::create_dir(path).unwrap();
                return None;
            }
            2 => {
                symlink(random.one_of(&["/dev/zero", "/dev/null", "/", "none"]), path).unwrap();
                return None;
            }
            3 if random.once_in(4) => {
                let made = Command::new("mkfifo").arg(path).status().expect("mkfifo starts");
                assert!(made.success());
                return None;
            }
            4 => return self.link(random, path),
            _ => random.file(),
        };
        fs::write(path, &content).unwrap();
        Some(content)
    }

    /// Makes a link to one of the files, or to nothing where there is none.
    fn link(&self, random: &mut Random, path: &Path) -> Option<Vec<u8>> {
        let there: Vec<&Vec<u8>> = self.files.keys().collect();
        if there.is_empty() {
            symlink("none", path).unwrap();
            return None;
        }
        let target = random.one_of(&there);
        symlink(OsStr::from_bytes(target), path).unwrap();
        self.files[target].clone()
    }

    /// What is read of a file of that name; nothing where none is opened.
    pub fn content(&self, name: &[u8]) -> Option<Vec<u8>> {
        self.files.get(name).cloned().flatten()
    }

    /// A list of names: mostly of these files, in any order and as often as it comes; now and then of none, and
    /// in one list of two empty or too long.
    pub fn names(&self, random: &mut Random) -> Vec<Vec<u8>> {
        let good: Vec<&Vec<u8>> = self.files.keys().filter(|name| name.len() <= LONGEST_NAME).collect();
        let all: Vec<&Vec<u8>> = self.files.keys().collect();
        let (lines, bad_once_in) = (random.lines(), random.one_of(&[usize::MAX, usize::MAX, 10, 100]));
        let mut name = || {
            if random.once_in(bad_once_in) {
                return vec![b'x'; random.one_of(&[0, LONGEST_NAME + 1])];
            }
            let files = if bad_once_in == usize::MAX { &good } else { &all };
            if files.is_empty() || random.once_in(10) {
                return self.no_file(random);
            }
            random.one_of(files).clone()
        };
        (0..lines).map(|_| name()).collect()
    }

    /// A name of no file of the folder, near to one.
    fn no_file(&self, random: &mut Random) -> Vec<u8> {
        let folder = self.path.as_os_str().as_bytes();
        match random.below(5) {
            0 => folder.to_vec(),
            1 => [folder, b"/"].concat(),
            2 => [folder, b"/\0"].concat(),
            3 => [folder, b"/none/n"].concat(),
            _ => [folder, b"/", &random.file_name(), b"?"].concat(),
        }
    }
}

impl Drop for Folder {
    fn drop(&mut self) {
        fs::remove_dir_all(&self.path).unwrap();
    }
}
