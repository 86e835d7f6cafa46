//! The stack that each call takes, at most over many inputs. A thread gets a stack of our own, filled with one byte; what a
//! call left untouched tells how deep it went. What a thread takes for itself is taken off.

use crate::{bursts, frames, indexes, rankings, rivals};
use second::call::{Call, Entry, ENTRIES};
use second::generate::any_call;
use second::linked;
use second::random::Random;
use second::{hard, recorded};
use std::ffi::c_void;
use std::ptr::null_mut;

const SIZE: usize = 256 * 1024;
const PAGE: usize = 4_096;
const FILL: u8 = 0xA5;
/// Random calls of each entry point, beside the recorded ones and the largest.
const CALLS: usize = 300;

extern "C" {
    fn pthread_attr_init(attributes: *mut c_void) -> i32;
    fn pthread_attr_setstack(attributes: *mut c_void, lowest: *mut c_void, size: usize) -> i32;
    fn pthread_create(
        thread: *mut usize,
        attributes: *const c_void,
        start: extern "C" fn(*mut c_void) -> *mut c_void,
        argument: *mut c_void,
    ) -> i32;
    fn pthread_join(thread: usize, result: *mut *mut c_void) -> i32;
}

/// What a thread of the measurement does.
type Work<'a> = &'a mut dyn FnMut();

extern "C" fn start(work: *mut c_void) -> *mut c_void {
    // The pointer is to a `Work` that lives until the thread has ended.
    let work = unsafe { &mut *work.cast::<Work>() };
    work();
    null_mut()
}

/// The bytes of stack that a thread takes for this work.
fn depth(mut work: Work) -> usize {
    let mut memory = vec![FILL; SIZE + PAGE];
    let lowest = memory.as_mut_ptr().wrapping_add(memory.as_ptr().align_offset(PAGE));
    // Large enough for the attributes of a thread.
    let mut attributes = [0_u64; 32];
    let mut thread = 0;
    // The memory outlives the thread, which is waited for, and nothing else looks at it meanwhile.
    unsafe {
        let attributes = attributes.as_mut_ptr().cast();
        assert_eq!(pthread_attr_init(attributes), 0);
        assert_eq!(pthread_attr_setstack(attributes, lowest.cast(), SIZE), 0);
        assert_eq!(pthread_create(&mut thread, attributes, start, (&raw mut work).cast()), 0);
        assert_eq!(pthread_join(thread, null_mut()), 0);
    }
    let from = lowest as usize - memory.as_ptr() as usize;
    let untouched = memory[from..from + SIZE].iter().take_while(|&&byte| byte == FILL).count();
    SIZE - untouched
}

/// Prints the most of each entry point.
pub fn run() -> bool {
    let random = Random::new(64);
    let mut calls: Vec<Call> = recorded::cases().into_iter().map(|case| case.call).collect();
    calls.extend(
        ENTRIES.iter().flat_map(|&entry| (0..CALLS).map(|_| any_call(&random, entry)).collect::<Vec<_>>()),
    );
    calls.extend(largest(&random));
    let nothing = depth(&mut || {});
    let mut most = [0; ENTRIES.len()];
    for call in &calls {
        let mut lent = call.lend();
        let mut out = [0; 64];
        let taken = depth(&mut || linked::run(call, &mut lent, &mut out)) - nothing;
        most[call.entry.index()] = taken.max(most[call.entry.index()]);
    }
    println!("{:<20} {:>8}", "call", "bytes");
    for entry in ENTRIES {
        println!("{:<20} {:>8}", entry.name(), most[entry.index()]);
    }
    println!("{} calls", calls.len());
    true
}

/// The inputs of the benchmark: as many stars as there may be, and hard searches.
fn largest(random: &Random) -> Vec<Call> {
    let rivals =
        hard::searches(random).into_iter().map(|(name, call)| (name, Call { entry: Entry::Rival, ..call }));
    let single = [
        frames::inputs(random),
        rankings::inputs(random),
        hard::searches(random),
        rivals::inputs(random),
        rivals.collect(),
    ]
    .concat();
    let mut calls: Vec<Call> = single.into_iter().map(|(_, call)| call).collect();
    calls.extend(bursts::inputs(random).into_iter().filter_map(|(_, calls)| calls.into_iter().next()));
    calls.push(indexes::by_index(&rankings::anywhere(random), i64::MIN));
    calls
}
