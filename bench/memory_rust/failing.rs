//! An allocator of which calls fail, to be loaded before the C library (LD_PRELOAD). It counts the
//! calls that take or move memory from the start of `main` on, and fails those of some numbers. All
//! others go on to the C library, and so do all calls before.
//!
//! The environment says what fails. FAILING_WORD is the first word behind the program's name: a
//! process with another one is left alone. FAILING_FIRST and FAILING_LAST are the first and the last
//! number, counted from 1. FAILING_MARK is a file, which gets a byte for each call that fails.

use std::env;
use std::ffi::{CStr, c_char, c_int, c_void};
use std::fs::File;
use std::io::Write;
use std::ptr::null_mut;
use std::sync::OnceLock;
use std::sync::atomic::{AtomicU64, Ordering};

type Words = *const *const c_char;
type Main = extern "C" fn(c_int, Words, Words) -> c_int;
type Start = unsafe extern "C" fn(
    Main,
    c_int,
    Words,
    *mut c_void,
    *mut c_void,
    *mut c_void,
    *mut c_void,
) -> c_int;

const ENOMEM: c_int = 12;
const EINVAL: c_int = 22;
const RTLD_NEXT: *mut c_void = usize::MAX as *mut c_void;

unsafe extern "C" {
    fn __libc_malloc(size: usize) -> *mut c_void;
    fn __libc_calloc(count: usize, size: usize) -> *mut c_void;
    fn __libc_realloc(old: *mut c_void, size: usize) -> *mut c_void;
    fn __libc_memalign(align: usize, size: usize) -> *mut c_void;
    fn __errno_location() -> *mut c_int;
    fn dlsym(handle: *mut c_void, name: *const c_char) -> *mut c_void;
}

/// Which calls fail, and the file that is told.
struct Plan {
    first: u64,
    last: u64,
    mark: File,
}

static MAIN: OnceLock<Main> = OnceLock::new();
static PLAN: OnceLock<Plan> = OnceLock::new();
static CALLS: AtomicU64 = AtomicU64::new(0);

/// Counts a call, and says whether it fails.
fn fails() -> bool {
    let Some(plan) = PLAN.get() else {
        return false;
    };
    let number = CALLS.fetch_add(1, Ordering::SeqCst) + 1;
    if number < plan.first || plan.last < number {
        return false;
    }
    let _ = (&plan.mark).write_all(b".");
    unsafe { *__errno_location() = ENOMEM };
    true
}

/// What a call of the C library takes, or nothing where the call fails.
fn taken(take: impl FnOnce() -> *mut c_void) -> *mut c_void {
    if fails() { null_mut() } else { take() }
}

#[unsafe(no_mangle)]
unsafe extern "C" fn malloc(size: usize) -> *mut c_void {
    taken(|| unsafe { __libc_malloc(size) })
}

#[unsafe(no_mangle)]
unsafe extern "C" fn calloc(count: usize, size: usize) -> *mut c_void {
    taken(|| unsafe { __libc_calloc(count, size) })
}

#[unsafe(no_mangle)]
unsafe extern "C" fn realloc(old: *mut c_void, size: usize) -> *mut c_void {
    taken(|| unsafe { __libc_realloc(old, size) })
}

#[unsafe(no_mangle)]
unsafe extern "C" fn aligned_alloc(align: usize, size: usize) -> *mut c_void {
    taken(|| unsafe { __libc_memalign(align, size) })
}

#[unsafe(no_mangle)]
unsafe extern "C" fn memalign(align: usize, size: usize) -> *mut c_void {
    unsafe { aligned_alloc(align, size) }
}

#[unsafe(no_mangle)]
unsafe extern "C" fn posix_memalign(into: *mut *mut c_void, align: usize, size: usize) -> c_int {
    if !align.is_power_of_two() || align < size_of::<usize>() {
        return EINVAL;
    }
    let made = unsafe { aligned_alloc(align, size) };
    if made.is_null() {
        return ENOMEM;
    }
    unsafe { *into = made };
    0
}

/// What the environment says of a process with this first word.
fn plan_for(word: &CStr) -> Option<Plan> {
    if env::var("FAILING_WORD").ok()?.as_bytes() != word.to_bytes() {
        return None;
    }
    Some(Plan {
        first: env::var("FAILING_FIRST").ok()?.parse().ok()?,
        last: env::var("FAILING_LAST").ok()?.parse().ok()?,
        mark: File::create(env::var_os("FAILING_MARK")?).ok()?,
    })
}

/// Begins to count, and goes on to the program's own `main`.
extern "C" fn counted(count: c_int, words: Words, variables: Words) -> c_int {
    if count > 1 {
        let word = unsafe { CStr::from_ptr(*words.add(1)) };
        if let Some(plan) = plan_for(word) {
            let _ = PLAN.set(plan);
        }
    }
    match MAIN.get() {
        Some(main) => main(count, words, variables),
        None => unreachable!("the program was started without its main"),
    }
}

/// Starts a program as the C library does, but for its `main`, which `counted` is called before.
#[unsafe(no_mangle)]
unsafe extern "C" fn __libc_start_main(
    main: Main,
    count: c_int,
    words: Words,
    begin: *mut c_void,
    end: *mut c_void,
    loader: *mut c_void,
    stack: *mut c_void,
) -> c_int {
    let _ = MAIN.set(main);
    unsafe {
        let start: Start = std::mem::transmute(dlsym(RTLD_NEXT, c"__libc_start_main".as_ptr()));
        start(counted, count, words, begin, end, loader, stack)
    }
}
