//! The stack: how deep a call goes, and calls from places on it that are the same in every run.

use std::ptr;

/// Runs something on a thread of its own, whose stack starts at the same place in a page in every run. The four places in a line of the cache at
/// which a frame can start take turns.
pub fn from_place(turn: usize, mut run: impl FnMut() + Send) {
    let padded = [padded::<16>, padded::<32>, padded::<48>, padded::<64>][turn % 4];
    std::thread::scope(|threads| {
        let ran = threads.spawn(|| padded(&mut run)).join();
        ran.expect("what runs returns");
    });
}

/// Runs something with so many bytes more on the stack.
#[inline(never)]
fn padded<const SIZE: usize>(run: &mut dyn FnMut()) {
    let kept = [0_u8; SIZE];
    run();
    // What is read after the call is there meanwhile. Safety: a reference is valid for reads.
    unsafe { ptr::read_volatile(&kept) };
}

/// How far down is looked, and how much of it the painter's own frames may take.
const DEPTH: usize = 200 * 1024;
const MARGIN: usize = 384;
const PAINT: u8 = 0xC5;

/// Runs a call on a thread of its own and gives how many bytes of stack it took below its caller: the stack below is painted, and after the call
/// the deepest byte is looked for that lost its paint.
pub fn depth_of(call: impl FnOnce() + Send) -> usize {
    std::thread::scope(|threads| {
        let measured = std::thread::Builder::new()
            .stack_size(1024 * 1024)
            .spawn_scoped(threads, || measure(call));
        measured
            .expect("a thread")
            .join()
            .expect("the call returns")
    })
}

#[inline(never)]
fn measure(call: impl FnOnce()) -> usize {
    let mark = 0_u8;
    let top = &mark as *const u8 as usize;
    paint(top);
    call();
    top - deepest(top)
}

#[inline(never)]
fn paint(top: usize) {
    // Safety: the thread's stack reaches at least 1 MiB below its first frame, and nothing lives below this function's own frame.
    for at in top - DEPTH..top - MARGIN {
        unsafe { ptr::write_volatile(at as *mut u8, PAINT) }
    }
}

#[inline(never)]
fn deepest(top: usize) -> usize {
    (top - DEPTH..top - MARGIN)
        .find(|at| unsafe { ptr::read_volatile(*at as *const u8) } != PAINT)
        .unwrap_or(top - MARGIN)
}
