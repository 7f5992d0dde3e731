//! A built program, run on an input that comes as a file or through a pipe, piece by piece.

use crate::delivery::Delivery;
use std::ffi::{c_char, c_int, c_short, c_ulong, CString};
use std::fs::File;
use std::io::Write;
use std::os::fd::AsRawFd;
use std::os::unix::ffi::OsStrExt;
use std::os::unix::fs::OpenOptionsExt;
use std::path::{Path, PathBuf};
use std::process::{Command, Stdio};
use std::sync::atomic::{AtomicUsize, Ordering};
use std::time::{Duration, Instant};

pub struct Program {
    command: String,
    /// The program's current folder.
    pub folder: PathBuf,
}

impl Program {
    /// The program whose shell command the variable holds, in a folder of its own.
    pub fn from_environment(variable: &str) -> Program {
        let command =
            std::env::var(variable).unwrap_or_else(|_| panic!("{variable} must be the command of the program"));
        static NUMBER: AtomicUsize = AtomicUsize::new(0);
        let (process, number) = (std::process::id(), NUMBER.fetch_add(1, Ordering::Relaxed));
        let folder = std::env::temp_dir().join(format!("{}-{process}-{number}", variable.to_lowercase()));
        std::fs::create_dir_all(&folder).expect("a temporary folder");
        Program { command, folder }
    }

    /// What the program writes on standard output.
    pub fn run(&self, arguments: &[String], input: &[u8], delivery: &Delivery) -> Vec<u8> {
        let mut shell = Command::new("sh");
        shell.args(["-c", &format!("{} \"$@\"", self.command), "sh"]).args(arguments).current_dir(&self.folder);
        shell.stdout(Stdio::piped()).stderr(Stdio::null());
        let Delivery::Pieces(cuts) = delivery else {
            shell.stdin(in_file(&self.folder, input));
            return shell.output().expect("the command starts").stdout;
        };
        let mut child = shell.stdin(Stdio::piped()).spawn().expect("the command starts");
        let pipe = child.stdin.take().expect("standard input is piped");
        std::thread::scope(|scope| {
            scope.spawn(|| deliver(pipe, input, cuts));
            child.wait_with_output().expect("the program ends").stdout
        })
    }

    /// What the program writes on standard output where the file of this name comes through a pipe, in pieces.
    pub fn run_beside_a_pipe(&self, name: &str, content: &[u8], cuts: &[usize], input: &[u8]) -> Vec<u8> {
        let path = self.folder.join(name);
        let _ = std::fs::remove_file(&path);
        make_pipe(&path);
        let written = std::thread::scope(|scope| {
            scope.spawn(|| deliver(open_pipe(&path), content, cuts));
            self.run(&[], input, &Delivery::File)
        });
        std::fs::remove_file(&path).expect("the pipe is taken away");
        written
    }
}

/// Makes a pipe under a name.
fn make_pipe(path: &Path) {
    extern "C" {
        fn mkfifo(path: *const c_char, mode: u32) -> c_int;
    }
    let name = CString::new(path.as_os_str().as_bytes()).expect("a path has no zero byte");
    // SAFETY: the name is a C string.
    assert_eq!(unsafe { mkfifo(name.as_ptr(), 0o600) }, 0, "a pipe is made");
}

/// The writing end of a pipe with a name, once somebody reads from it.
fn open_pipe(path: &Path) -> File {
    let start = Instant::now();
    loop {
        // Without waiting, so that a program that never reads fails the test and doesn't hold it up.
        match File::options().write(true).custom_flags(O_NONBLOCK).open(path) {
            Ok(file) => return file,
            Err(error) => assert!(start.elapsed() < LONG, "nobody reads from the pipe: {error}"),
        }
        std::thread::sleep(A_WHILE);
    }
}

impl Drop for Program {
    fn drop(&mut self) {
        let _ = std::fs::remove_dir_all(&self.folder);
    }
}

fn in_file(folder: &Path, input: &[u8]) -> File {
    let path = folder.join("input");
    std::fs::write(&path, input).expect("the input is written");
    File::open(path).expect("the input is opened")
}

/// Writes the pieces one by one, each when the one before has been read. A program that refuses early stops reading.
fn deliver(mut pipe: impl Write + AsRawFd, input: &[u8], cuts: &[usize]) {
    let mut start = 0;
    for &end in cuts.iter().chain([&input.len()]) {
        if pipe.write_all(&input[start..end]).is_err() || !is_read(&pipe) {
            return;
        }
        start = end;
    }
}

#[repr(C)]
struct Poll {
    file: c_int,
    events: c_short,
    returned: c_short,
}

extern "C" {
    fn ioctl(file: c_int, request: c_ulong, ...) -> c_int;
    fn poll(files: *mut Poll, count: c_ulong, milliseconds: c_int) -> c_int;
}

/// Asks how many bytes wait in a pipe.
const FIONREAD: c_ulong = 0x541b;
/// Between two looks at a pipe; nothing depends on how long it is.
const A_WHILE: Duration = Duration::from_micros(20);
/// As long as a pipe may go without a reader.
const LONG: Duration = Duration::from_secs(60);
/// Linux's flag for a file that is not waited for.
const O_NONBLOCK: i32 = 0o4000;
/// The reading end of a pipe is closed.
const POLLERR: c_short = 8;

/// Waits until the pipe is empty; false where the program has closed it.
fn is_read(pipe: &impl AsRawFd) -> bool {
    let file = pipe.as_raw_fd();
    loop {
        let mut waiting: c_int = 0;
        // SAFETY: the pipe is open, and FIONREAD writes one number.
        assert_eq!(unsafe { ioctl(file, FIONREAD, &mut waiting) }, 0, "a pipe tells how many bytes wait");
        if waiting == 0 {
            return true;
        }
        let mut asked = Poll { file, events: 0, returned: 0 };
        // SAFETY: one open file is asked about, without waiting.
        unsafe { poll(&mut asked, 1, 0) };
        if asked.returned & POLLERR != 0 {
            return false;
        }
        std::thread::sleep(A_WHILE);
    }
}
