//! For `oracle/reached`: which blocks of the program were run. The compiler puts a flag into each block and makes a table of where the blocks start; both are
//! handed over here when the program begins, and written down when it ends.
use std::sync::atomic::{AtomicUsize, Ordering::Relaxed};

static FLAGS: [AtomicUsize; 2] = [const { AtomicUsize::new(0) }; 2];
static STARTS: [AtomicUsize; 2] = [const { AtomicUsize::new(0) }; 2];

#[no_mangle]
extern "C" fn __sanitizer_cov_bool_flag_init(from: *const u8, to: *const u8) {
    FLAGS[0].store(from as usize, Relaxed);
    FLAGS[1].store(to as usize, Relaxed);
}

#[no_mangle]
extern "C" fn __sanitizer_cov_pcs_init(from: *const usize, to: *const usize) {
    STARTS[0].store(from as usize, Relaxed);
    STARTS[1].store(to as usize, Relaxed);
}

/// Writes the address of each block, and whether it was run, to the file that `REACHED` names.
pub fn write() {
    let Some(path) = std::env::var_os("REACHED") else { return };
    let (flags, starts) = (FLAGS.each_ref().map(|a| a.load(Relaxed)), STARTS.each_ref().map(|a| a.load(Relaxed)));
    let count = flags[1] - flags[0];
    assert!(
        count > 0 && (starts[1] - starts[0]) / (2 * size_of::<usize>()) == count,
        "a table of the blocks, one row for each flag"
    );
    let mut out = String::new();
    for i in 0..count {
        // SAFETY: the compiler's table has `count` flags of a byte, and `count` pairs of an address and what kind of block it is; both stay.
        let (run, start) = unsafe { (*(flags[0] as *const u8).add(i), *(starts[0] as *const usize).add(2 * i)) };
        out += &format!("{start:x} {run}\n");
    }
    std::fs::write(path, out).expect("a file that can be written");
}
