//! The library in its own process (serve.c), and the words that this program and it share.

use std::error::Error;
use std::ffi::{c_char, c_int, c_uint, c_void};
use std::fs::File;
use std::io::{self, Read, Write};
use std::os::fd::{AsRawFd, FromRawFd};
use std::process::{exit, Child, Command, Stdio};

extern "C" {
    fn memfd_create(name: *const c_char, flags: c_uint) -> c_int;
    fn mmap(
        at: *mut c_void,
        bytes: usize,
        protection: c_int,
        flags: c_int,
        file: c_int,
        offset: i64,
    ) -> *mut c_void;
}
const READ_WRITE: c_int = 3;
const SHARED_NO_RESERVE: c_int = 0x4001;

/// Words that are shared: enough for all stores of a 4096×4096 map whose labels are all distinct. Memory is taken only where it is written.
pub const WORDS: usize = 950_000_000;
/// Words of a call's row, and where its answer and its mode stand.
pub const ROW: usize = 32;
pub const ANSWER: usize = 20;
pub const MODE: usize = 28;

pub struct Library {
    file: File,
    words: *mut u32,
    child: Child,
}

impl Library {
    /// Starts `command`, the words of a command line that runs serve.c.
    pub fn start(command: &[String]) -> Result<Library, Box<dyn Error>> {
        let (program, before) = command.split_first().ok_or("no command for the library")?;
        let (file, words) = shared(WORDS)?;
        let child = Command::new(program)
            .args(before)
            .args([file.as_raw_fd().to_string(), WORDS.to_string()])
            .stdin(Stdio::piped())
            .stdout(Stdio::piped())
            .spawn()?;
        Ok(Library { file, words, child })
    }

    /// The shared words, while the library is not at work.
    pub fn words(&mut self) -> &mut [u32] {
        // SAFETY: that many words are mapped, and the library's process writes to them only between `run` and `wait`.
        unsafe { std::slice::from_raw_parts_mut(self.words, WORDS) }
    }

    /// Gives the memory of the shared words back, while the library is not at work.
    pub fn release(&mut self) {
        let bytes = self.file.set_len(0);
        let again = bytes.and_then(|()| self.file.set_len(4 * WORDS as u64));
        self.must(Some(again));
    }

    /// Has the library make `count` calls, whose rows stand at the start of the shared words.
    pub fn run(&mut self, count: usize) {
        let bytes = (count as u32).to_ne_bytes();
        let sent = self.child.stdin.as_mut().map(|to| to.write_all(&bytes));
        self.must(sent);
    }

    /// Waits until the calls are made.
    pub fn wait(&mut self) {
        let from = self.child.stdout.as_mut();
        let done = from.map(|from| from.read_exact(&mut [0]));
        self.must(done);
    }

    /// The library's process does not end by itself: where it has, nothing can be compared.
    fn must(&mut self, done: Option<io::Result<()>>) {
        if !matches!(done, Some(Ok(()))) {
            eprintln!("the library's process is gone: {:?}", self.child.wait());
            exit(1);
        }
    }
}

impl Drop for Library {
    /// The process ends with its input; who times the comparison wants its time too.
    fn drop(&mut self) {
        drop(self.child.stdin.take());
        let _ = self.child.wait();
    }
}

/// An open file of that many words with no place on a disk, and its words.
fn shared(words: usize) -> Result<(File, *mut u32), Box<dyn Error>> {
    // SAFETY: C's functions by their manual pages. The child inherits the file, and nothing is ever unmapped.
    unsafe {
        let number = memfd_create(c"mosaic".as_ptr(), 0);
        if number < 0 {
            return Err(io::Error::last_os_error().into());
        }
        let file = File::from_raw_fd(number);
        file.set_len(4 * words as u64)?;
        let at = mmap(
            std::ptr::null_mut(),
            4 * words,
            READ_WRITE,
            SHARED_NO_RESERVE,
            number,
            0,
        );
        if at as isize == -1 {
            return Err(io::Error::last_os_error().into());
        }
        Ok((file, at.cast()))
    }
}
