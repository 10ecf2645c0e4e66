//! How deep a call goes: the stack of a thread is painted, and what was painted over is counted.
const STACK: usize = 4 << 20;
const PAINTED: usize = STACK - (256 << 10);
const PAINT: u64 = 0x5EED_0FC0_FFEE_BE11;

/// Bytes of stack that a call takes, to 8.
pub fn peak(f: impl FnMut() + Send) -> usize {
    std::thread::scope(|s| {
        std::thread::Builder::new().stack_size(STACK).spawn_scoped(s, || painted(f)).unwrap().join().unwrap()
    })
}

#[inline(never)]
fn painted(mut f: impl FnMut()) -> usize {
    let here = 0u64;
    let top = (&here as *const u64 as usize) & !7;
    // below this function's own frame and what painting itself needs
    let high = top - 1024;
    let low = top - PAINTED;
    // SAFETY: the thread has STACK bytes, and nothing that is live stands below this frame.
    unsafe {
        paint(low, high);
        f();
        top - first_changed(low, high)
    }
}

#[inline(never)]
unsafe fn paint(low: usize, high: usize) {
    let mut at = low;
    while at < high {
        (at as *mut u64).write_volatile(PAINT);
        at += 8;
    }
}

#[inline(never)]
unsafe fn first_changed(low: usize, high: usize) -> usize {
    let mut at = low;
    while at < high && (at as *const u64).read_volatile() == PAINT {
        at += 8;
    }
    at
}
