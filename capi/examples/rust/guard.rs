//! A lock as a guard, which is given back where it goes out of scope. Over the sessions of libmidgegalena (mg_session.h).
//!
//!     rustc --edition 2021 -L PREFIX/lib guard.rs
//!     guard FOLDER HOST [INTERVAL]      takes db, waits for a line or the end of standard input, and gives db back
//!
//! While it waits for db it looks, at most INTERVAL milliseconds apart.
//! The images are made once before, as by `dlm format FOLDER`.
use std::cell::RefCell;
use std::env;
use std::ffi::{CStr, CString, NulError};
use std::fmt;
use std::io::{self, Write};
use std::mem::ManuallyDrop;
use std::os::raw::{c_char, c_int, c_uint, c_void};
use std::os::unix::ffi::OsStrExt;
use std::path::{Path, PathBuf};
use std::process::ExitCode;
use std::ptr;
use std::time::Duration;

#[repr(C)]
#[derive(Default)]
struct Value {
    bytes: [u8; 16],
    flags: u32,
}

/// What the library tells of a lock that is held: `struct mg_held`.
#[repr(C)]
#[derive(Default)]
struct View {
    lock: u32,
    released: u32,
    slot: i64,
    cluster: u64,
    slots_left: u64,
    value: Value,
}

#[link(name = "midgegalena")]
unsafe extern "C" {
    fn mg_begin(folder: *const c_char, host: c_uint, flags: c_uint, out: *mut *mut c_void, disk: *mut c_int) -> c_int;
    fn mg_end(session: *mut c_void);
    fn mg_take(session: *mut c_void, name: *const c_char, mode: c_int, timeout: c_int, held: *mut View) -> c_int;
    fn mg_give(session: *mut c_void, lock: c_uint, value: *const c_void) -> c_int;
    fn mg_set_interval(session: *mut c_void, milliseconds: c_int) -> c_int;
    fn mg_strerror(status: c_int) -> *const c_char;
}

const BAD_ARGUMENT: c_int = -1;
const TIMED_OUT: c_int = -2;
const IN_DOUBT: c_int = -6;
const NO_SUCH_LOCK: c_int = 12;

/// As the library counts them. This program has use for one of them.
#[allow(dead_code)]
#[derive(Clone, Copy)]
enum Mode {
    Null,
    ConcurrentRead,
    ConcurrentWrite,
    ProtectedRead,
    ProtectedWrite,
    Exclusive,
}

/// Why a call was refused, with the library's sentence as text.
#[derive(Debug)]
enum Error {
    /// Others have the lock.
    TimedOut,
    /// The lock was taken away, while it was waited for or held.
    Lost,
    /// It is not known whether the lock stays in the table. The session's next `take` releases it.
    InDoubt,
    /// Any other number of the library's.
    Refused(c_int),
}

impl Error {
    fn check(status: c_int) -> Result<(), Error> {
        match status {
            0 => Ok(()),
            TIMED_OUT => Err(Error::TimedOut),
            NO_SUCH_LOCK => Err(Error::Lost),
            IN_DOUBT => Err(Error::InDoubt),
            status => Err(Error::Refused(status)),
        }
    }

    fn status(&self) -> c_int {
        match self {
            Error::TimedOut => TIMED_OUT,
            Error::Lost => NO_SUCH_LOCK,
            Error::InDoubt => IN_DOUBT,
            Error::Refused(status) => *status,
        }
    }
}

impl fmt::Display for Error {
    fn fmt(&self, f: &mut fmt::Formatter) -> fmt::Result {
        // SAFETY: for each number it is a text that is never freed.
        let text = unsafe { CStr::from_ptr(mg_strerror(self.status())) };
        f.write_str(&text.to_string_lossy())
    }
}

impl std::error::Error for Error {}

/// A text with a zero in it is no folder and no name.
impl From<NulError> for Error {
    fn from(_: NulError) -> Error {
        Error::Refused(BAD_ARGUMENT)
    }
}

/// A session of a host number, which no other process has meanwhile. It is for one thread: a raw pointer is neither `Send` nor `Sync`.
struct Session {
    handle: *mut c_void,
    /// Locks that could not be given back.
    left: RefCell<Vec<u32>>,
}

impl Session {
    /// Releases what former sessions of the host number left, as where a process was killed.
    fn begin(folder: &Path, host: u32) -> Result<Session, Error> {
        let folder = CString::new(folder.as_os_str().as_bytes())?;
        let mut handle = ptr::null_mut();
        // SAFETY: the text ends with a zero, and `handle` is written at once.
        Error::check(unsafe { mg_begin(folder.as_ptr(), host, 0, &mut handle, ptr::null_mut()) })?;
        Ok(Session { handle, left: RefCell::default() })
    }

    /// The longest pause between two looks of a wait, which is 5 ms at first.
    fn set_interval(&self, longest: Duration) -> Result<(), Error> {
        let longest = c_int::try_from(longest.as_millis()).unwrap_or(c_int::MAX);
        // SAFETY: the session is not ended.
        Error::check(unsafe { mg_set_interval(self.handle, longest) })
    }

    /// Takes a lock on a name. With `None` it waits without an end, and with a timeout of zero it does not wait. What could not be given
    /// back is given back first, which may wait a minute once more.
    fn take(&self, name: &str, mode: Mode, timeout: Option<Duration>) -> Result<Held<'_>, Error> {
        for lock in self.left.take() {
            let _ = self.give(lock); // where this fails the lock is left again
        }
        let name = CString::new(name)?;
        let timeout = timeout.map_or(-1, |it| c_int::try_from(it.as_millis()).unwrap_or(c_int::MAX));
        let mut view = View::default();
        // SAFETY: the session is not ended, the text ends with a zero, and `View` is laid out as `struct mg_held`.
        Error::check(unsafe { mg_take(self.handle, name.as_ptr(), mode as c_int, timeout, &mut view) })?;
        Ok(Held { session: self, view })
    }

    fn give(&self, lock: u32) -> Result<(), Error> {
        // SAFETY: the session is not ended, and no value is left with the name.
        let given = Error::check(unsafe { mg_give(self.handle, lock, ptr::null()) });
        if !matches!(given, Ok(()) | Err(Error::Lost)) {
            self.left.borrow_mut().push(lock);
        }
        given
    }
}

impl Drop for Session {
    fn drop(&mut self) {
        // SAFETY: each `Held` borrows the session, so none is left.
        unsafe { mg_end(self.handle) }
    }
}

/// A lock that is held. Its slot is a fencing token: each holder of `Exclusive` has a greater one than the holder before it, as long as
/// the cluster is the same.
///
/// A drop gives the lock back, and may wait a minute for disks. If that fails it can only print why; `give` tells its caller.
#[must_use = "a lock that is not kept is given back at once"]
struct Held<'a> {
    session: &'a Session,
    view: View,
}

impl Held<'_> {
    /// Gives the lock back. `Lost`: it was taken away before, so others may have had it meanwhile. After any other error it is still
    /// the session's, whose next `take` tries again. If the session ends before, the next one of the host number does so.
    fn give(self) -> Result<(), Error> {
        let held = ManuallyDrop::new(self);
        held.session.give(held.view.lock)
    }
}

impl Drop for Held<'_> {
    fn drop(&mut self) {
        if let Err(why) = self.session.give(self.view.lock) {
            // `eprintln!` would panic where that cannot be written.
            let _ = writeln!(io::stderr(), "lock {} was not given back: {why}", self.view.lock);
        }
    }
}

/// The work under the lock.
fn work(db: &Held) -> io::Result<()> {
    let View { slot, cluster, slots_left, .. } = db.view;
    writeln!(io::stdout(), "db is ours: slot {slot} of cluster {cluster}, {slots_left} slots are left")?;
    io::stdin().read_line(&mut String::new())?;
    Ok(())
}

fn run(folder: &Path, host: u32, interval: Option<Duration>) -> Result<(), Box<dyn std::error::Error>> {
    let session = Session::begin(folder, host)?;
    if let Some(longest) = interval {
        session.set_interval(longest)?;
    }
    let db = session.take("db", Mode::Exclusive, Some(Duration::from_secs(1)))?;
    work(&db)?; // where this fails, or panics, the drop gives db back
    db.give()?;
    Ok(())
}

fn arguments() -> Option<(PathBuf, u32, Option<Duration>)> {
    let mut words = env::args_os().skip(1);
    let (folder, host) = (words.next()?, words.next()?.to_str()?.parse().ok()?);
    let interval = match words.next() {
        None => None,
        Some(word) => Some(Duration::from_millis(word.to_str()?.parse().ok()?)),
    };
    words.next().is_none().then(|| (folder.into(), host, interval))
}

fn main() -> ExitCode {
    let Some((folder, host, interval)) = arguments() else {
        eprintln!("guard FOLDER HOST [INTERVAL]");
        return ExitCode::from(2);
    };
    match run(&folder, host, interval) {
        Ok(()) => ExitCode::SUCCESS,
        Err(why) => {
            eprintln!("guard: {why}");
            ExitCode::FAILURE
        }
    }
}
