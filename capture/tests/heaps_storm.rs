// storm_rust THREADS SLOTS 0 SEED: as heaps_storm.c without rounds, by the allocator of Rust's std: blocks that grow
// and shrink, aligned ones, and strings of threads that end, until it is killed.
use std::alloc::{alloc, alloc_zeroed, dealloc, realloc, Layout};
use std::collections::HashMap;
use std::sync::atomic::{AtomicU64, Ordering::SeqCst};

const TRUTH: usize = 0x100000000000;
const HANDS: usize = 256;
const MOST_LEAKS: usize = 4000;
const SLOTS_AT: usize = 32 + 8 * HANDS + 16 * MOST_LEAKS;

extern "C" {
    fn mmap(start: usize, size: usize, protection: i32, flags: i32, file: i32, offset: i64) -> usize;
}

// A word of what heaps_truth.py reads.
fn word(at: usize) -> &'static AtomicU64 {
    unsafe { &*((TRUTH + at) as *const AtomicU64) }
}

fn drawn(seed: &mut u64) -> u64 {
    *seed ^= *seed << 13;
    *seed ^= *seed >> 7;
    *seed ^= *seed << 17;
    *seed
}

fn layout_of(seed: &mut u64) -> Layout {
    let size = match drawn(seed) % 1000 {
        0..=859 => 1 + drawn(seed) % 1024,
        860..=979 => 1 + drawn(seed) % 16384,
        980..=996 => 1 + drawn(seed) % 262144,
        _ => 1 + drawn(seed) % 4194304,
    };
    let align = if drawn(seed) % 16 == 0 { 16 << (drawn(seed) % 9) } else { 8 };
    Layout::from_size_align(size as usize, align).unwrap()
}

// What this thread has, by its slot: the slots of other threads are theirs.
fn storm(number: usize, threads: usize, slots: usize, mut seed: u64) {
    let mut own: HashMap<usize, (*mut u8, Layout)> = HashMap::new();
    let hand = word(32 + 8 * number);
    loop {
        let slot = drawn(&mut seed) as usize % (slots / threads) * threads + number;
        let at = SLOTS_AT + 32 * slot;
        let layout = layout_of(&mut seed);
        word(at).store(!0, SeqCst);
        let (block, layout) = match own.remove(&slot) {
            Some((block, old)) => {
                hand.store(!(block as u64), SeqCst);
                if drawn(&mut seed) % 8 != 0 {
                    unsafe { dealloc(block, old) };
                    hand.store(0, SeqCst);
                    continue;
                }
                let new = Layout::from_size_align(layout.size(), old.align()).unwrap();
                (unsafe { realloc(block, old, new.size()) }, new)
            }
            None if drawn(&mut seed) % 16 == 0 => (unsafe { alloc_zeroed(layout) }, layout),
            None => (unsafe { alloc(layout) }, layout),
        };
        hand.store(!(block as u64), SeqCst);
        unsafe { std::ptr::write_bytes(block, 0x55, layout.size().min(512)) };
        word(at + 8).store(layout.size() as u64, SeqCst);
        word(at + 16).store(layout.size() as u64, SeqCst);
        word(at).store(!(block as u64), SeqCst);
        own.insert(slot, (block, layout));
        hand.store(0, SeqCst);
    }
}

fn main() {
    let words: Vec<u64> = std::env::args().skip(1).map(|word| word.parse().unwrap()).collect();
    let (threads, slots, seed) = (words[0] as usize, words[1] as usize, words[3]);
    // readable and writable, private, of no file, at this place
    unsafe { mmap(TRUTH, SLOTS_AT + 32 * slots, 3, 0x100022, -1, 0) };
    word(0).store(slots as u64, SeqCst);
    for slot in 0..slots {
        word(SLOTS_AT + 32 * slot).store(!0, SeqCst);
    }
    let storms: Vec<_> = (0..threads)
        .map(|number| {
            let own_seed = (seed * 64 + number as u64 + 1).wrapping_mul(0x9e3779b97f4a7c15) | 1;
            std::thread::spawn(move || storm(number, threads, slots, own_seed))
        })
        .collect();
    loop {
        // threads that end, with what they allocated
        let strings = |n| (0..200).map(|i| format!("{i} {n}")).collect::<Vec<String>>().len();
        let brief: Vec<_> = (0..4).map(|n: u64| std::thread::spawn(move || strings(n))).collect();
        brief.into_iter().for_each(|thread| drop(thread.join()));
        std::thread::sleep(std::time::Duration::from_millis(3));
        if storms.iter().all(|storm| storm.is_finished()) {
            return;
        }
    }
}
