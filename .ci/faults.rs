// A library to load before the C library (LD_PRELOAD): its read of descriptor 0 and its write to descriptor 1 fail as the
// variable FAULTS says, so that what the programs do then can be tried without a broken disk.
//   FAULTS=read:5:3     the third read fails with error 5 (EIO); every other call is made
//   FAULTS=write:4:0    every second write is interrupted (error 4, EINTR), and each other one moves a single byte
use std::ffi::{c_int, c_long, c_void};
use std::sync::atomic::{AtomicUsize, Ordering};

extern "C" {
    fn syscall(number: c_long, ...) -> c_long;
    fn __errno_location() -> *mut c_int;
}

static READS: AtomicUsize = AtomicUsize::new(0);
static WRITES: AtomicUsize = AtomicUsize::new(0);

// What is to happen at a call: an error, or how many bytes it may move.
fn plan(call: &str, count: &AtomicUsize, size: usize) -> Result<usize, c_int> {
    let k = count.fetch_add(1, Ordering::Relaxed) + 1;
    let faults = std::env::var("FAULTS").unwrap_or_default();
    let words: Vec<&str> = faults.split(':').collect();
    if words.len() != 3 || words[0] != call {
        return Ok(size);
    }
    let error: c_int = words[1].parse().unwrap();
    let when: usize = words[2].parse().unwrap();
    if when == 0 {
        return if k % 2 == 1 { Err(error) } else { Ok(size.min(1)) };
    }
    if k == when { Err(error) } else { Ok(size) }
}

fn make(number: c_long, fd: c_int, at: *const c_void, planned: Result<usize, c_int>) -> isize {
    match planned {
        Ok(size) => unsafe { syscall(number, fd, at, size) as isize },
        Err(error) => {
            unsafe { *__errno_location() = error };
            -1
        }
    }
}

#[no_mangle]
pub extern "C" fn read(fd: c_int, to: *mut c_void, size: usize) -> isize {
    let planned = if fd == 0 { plan("read", &READS, size) } else { Ok(size) };
    make(0, fd, to, planned)
}

#[no_mangle]
pub extern "C" fn write(fd: c_int, from: *const c_void, size: usize) -> isize {
    let planned = if fd == 1 { plan("write", &WRITES, size) } else { Ok(size) };
    make(1, fd, from, planned)
}
