//! The target of `oracle/guided`. clang's libFuzzer makes inputs, led by which code of the crate and of the library each of them reaches; an input is the
//! choices of the random manners, and what is compared is what `oracle/native` compares. A difference ends nothing: it is written down as a log, and counted.
use side::wrong::{self, Wrong};
use std::cell::RefCell;
use std::ffi::{c_char, c_int};
use std::fs;
use std::os::unix::ffi::OsStringExt;
use std::panic::{catch_unwind, AssertUnwindSafe};
use std::path::PathBuf;
use std::time::Instant;

extern "C" {
    fn atexit(last: extern "C" fn()) -> c_int;
    fn LLVMFuzzerRunDriver(
        argc: *mut c_int,
        argv: *mut *mut *mut c_char,
        one: extern "C" fn(*const u8, usize) -> c_int,
    ) -> c_int;
}

/// The most steps that an input makes, and the most logs that are written.
const STEPS: u64 = 64;
const LOGS: u64 = 20;
/// The counts are written down after so many seconds, so that a run that is stopped by force is counted too.
const EVERY: u64 = 5;

struct Counts {
    inputs: u64,
    steps: u64,
    listed: u64,
    unlisted: u64,
    written: Instant,
}

thread_local! {
    static COUNTS: RefCell<Counts> =
        RefCell::new(Counts { inputs: 0, steps: 0, listed: 0, unlisted: 0, written: Instant::now() });
    static WRONG: Option<Wrong> = std::env::var("GUIDED_WRONG").ok().and_then(|name| wrong::named(&name));
    static PANIC: RefCell<String> = const { RefCell::new(String::new()) };
}

/// Where logs and counts go: oracle/guided names the folder.
fn folder() -> PathBuf {
    PathBuf::from(std::env::var_os("GUIDED_FOLDER").unwrap_or_else(|| ".".into()))
}

impl Counts {
    /// Inputs, steps, listed and unlisted differences, and nanoseconds of processor.
    fn write(&mut self) {
        self.written = Instant::now();
        let used = fs::read_to_string("/proc/self/schedstat").unwrap_or_default();
        let nanos = used.split(' ').next().unwrap_or("0").to_string();
        let line = format!("{} {} {} {} {nanos}\n", self.inputs, self.steps, self.listed, self.unlisted);
        let name = format!("count.{}", std::process::id());
        let (now, before) = (folder().join(&name), folder().join(format!(".{name}")));
        // Written whole or not at all.
        if fs::write(&before, line).is_ok() {
            let _ = fs::rename(&before, &now);
        }
    }
}

/// Writes a difference down with its input.
fn tell(input: &[u8], number: u64, log: &str) {
    let name = folder().join(format!("difference-{}-{number}", std::process::id()));
    let _ = fs::write(name.with_extension("drill"), format!("# {log}\n"));
    let _ = fs::write(name.with_extension("input"), input);
}

extern "C" fn one(data: *const u8, size: usize) -> c_int {
    // SAFETY: libFuzzer lends `size` bytes at `data` for the length of this call.
    let input = if size == 0 { &[][..] } else { unsafe { std::slice::from_raw_parts(data, size) } };
    COUNTS.with_borrow_mut(|counts| {
        let before = counts.unlisted;
        let mut report = |told: &dyn Fn() -> String| {
            counts.unlisted += 1;
            if counts.unlisted <= LOGS {
                tell(input, counts.unlisted, &told());
            }
        };
        let made = catch_unwind(AssertUnwindSafe(|| side::fed(input, STEPS, WRONG.with(|w| *w), &mut report)));
        counts.inputs += 1;
        match made {
            Ok(made) => {
                counts.steps += made.steps;
                counts.listed += made.reasons.values().sum::<u64>();
            }
            Err(_) => {
                counts.unlisted += 1;
                if counts.unlisted <= LOGS {
                    tell(input, counts.unlisted, &format!("the comparison itself stopped: {}", PANIC.take()));
                }
            }
        }
        if counts.unlisted > before || counts.inputs % 64 == 0 && counts.written.elapsed().as_secs() >= EVERY {
            counts.write();
        }
    });
    0
}

/// libFuzzer ends the program itself.
extern "C" fn last() {
    COUNTS.with_borrow_mut(Counts::write);
}

/// `guided --corpus FOLDER LOG..`: writes the inputs that logs of the drill make, each named by its place.
fn corpus(folder: &str, logs: &[String]) -> std::io::Result<()> {
    for log in logs {
        let name = std::path::Path::new(log).file_stem().unwrap_or_default().to_string_lossy().into_owned();
        for (i, input) in side::corpus::inputs(&fs::read_to_string(log)?).iter().enumerate() {
            fs::write(PathBuf::from(folder).join(format!("{name}-{i}")), input)?;
        }
    }
    Ok(())
}

fn main() {
    let given: Vec<String> = std::env::args().skip(1).collect();
    if let [word, folder, logs @ ..] = &given[..] {
        if word == "--corpus" {
            corpus(folder, logs).expect("logs that can be read, and a folder that can be written to");
            return;
        }
    }
    if let Some(why) = side::other_revision() {
        eprintln!("guided: {why}");
        std::process::exit(2);
    }
    let mut words: Vec<std::ffi::CString> =
        std::env::args_os().map(|w| std::ffi::CString::new(w.into_vec()).expect("a word without a zero byte")).collect();
    // What the crate's panics say is kept and not printed: each is caught, and is an answer of the crate's.
    std::panic::set_hook(Box::new(|what| PANIC.set(what.to_string().replace('\n', " "))));
    let mut pointers: Vec<*mut c_char> =
        words.iter_mut().map(|w| w.as_ptr().cast_mut()).chain([std::ptr::null_mut()]).collect();
    let (mut count, mut start) = (words.len() as c_int, pointers.as_mut_ptr());
    // SAFETY: the words live until the end, and the list of them ends with a null, as that of a program's words does; `last` takes nothing, and the counts have no
    // destructor, so that they are there when the program ends.
    let status = unsafe {
        atexit(last);
        LLVMFuzzerRunDriver(&mut count, &mut start, one)
    };
    std::process::exit(status);
}
