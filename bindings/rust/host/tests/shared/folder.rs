//! Folders for programs to run in, which read the file `langs` there.

use std::io::ErrorKind;
use std::path::{Path, PathBuf};
use std::{fs, thread};

/// The name of the list that programs read.
pub const LANGS: &str = "langs";

/// A folder of the tests, which is gone after them, unless one failed.
pub struct Folder(PathBuf);

impl Drop for Folder {
    fn drop(&mut self) {
        if !thread::panicking() {
            let _ = fs::remove_dir_all(&self.0);
        }
    }
}

impl Folder {
    /// An empty folder of this name.
    pub fn new(name: &str) -> Folder {
        let folder = Path::new(env!("CARGO_TARGET_TMPDIR")).join(name);
        match fs::remove_dir_all(&folder) {
            Err(error) if error.kind() != ErrorKind::NotFound => panic!("{name}: {error}"),
            _ => fs::create_dir_all(&folder).expect("a folder can be made"),
        }
        Folder(folder)
    }

    /// Where it is.
    pub fn path(&self) -> &Path {
        &self.0
    }

    /// The list as its file `langs`.
    pub fn lend(&self, langs: &[u8]) {
        fs::write(self.0.join(LANGS), langs).expect("the list can be written");
    }

    /// No file `langs`.
    #[allow(dead_code)]
    pub fn lend_nothing(&self) {
        match fs::remove_file(self.0.join(LANGS)) {
            Err(error) if error.kind() != ErrorKind::NotFound => panic!("{LANGS}: {error}"),
            _ => {}
        }
    }
}
