// Locks of the standard library and of its atomics, to stand beside the lock of coroutines: `word` is a compare and a sub on one
// word, over and over; `mutex` is std's mutex by one thread; `four-ticket` and `four-mutex` are four threads that add 1 under a fair
// ticket lock and under std's mutex. It prints how many turns there were.
use std::cell::UnsafeCell;
use std::hint::black_box;
use std::sync::Mutex;
use std::sync::atomic::{AtomicU64, Ordering};
use std::thread;

const ONE: u64 = 2_000_000;
const EACH: u64 = 100_000;

fn word() -> u64 {
    let locked = AtomicU64::new(0);
    let mut value = 0;
    for _ in 0..ONE {
        let locked = black_box(&locked);
        if locked.compare_exchange(0, 1, Ordering::SeqCst, Ordering::SeqCst).is_ok() {
            value = black_box(value) + 1;
            locked.fetch_sub(1, Ordering::SeqCst);
        }
    }
    value
}

fn mutex() -> u64 {
    let value = Mutex::new(0);
    for _ in 0..ONE {
        *black_box(&value).lock().unwrap() += 1;
    }
    value.into_inner().unwrap()
}

// Who comes takes a ticket, and waits until it is called.
struct Ticket {
    next: AtomicU64,
    called: AtomicU64,
    value: UnsafeCell<u64>,
}

unsafe impl Sync for Ticket {}

impl Ticket {
    fn add(&self) {
        let ticket = self.next.fetch_add(1, Ordering::SeqCst);
        while self.called.load(Ordering::SeqCst) != ticket {
            thread::yield_now();
        }
        unsafe { *self.value.get() += 1 };
        self.called.store(ticket + 1, Ordering::SeqCst);
    }
}

fn by_four(turn: impl Fn() + Sync) {
    thread::scope(|scope| {
        for _ in 0..4 {
            scope.spawn(|| (0..EACH).for_each(|_| turn()));
        }
    });
}

fn four_ticket() -> u64 {
    let lock = Ticket { next: AtomicU64::new(0), called: AtomicU64::new(0), value: UnsafeCell::new(0) };
    by_four(|| lock.add());
    lock.value.into_inner()
}

fn four_mutex() -> u64 {
    let value = Mutex::new(0);
    by_four(|| *value.lock().unwrap() += 1);
    value.into_inner().unwrap()
}

fn main() {
    let turns = match std::env::args().nth(1).as_deref() {
        Some("word") => word(),
        Some("mutex") => mutex(),
        Some("four-ticket") => four_ticket(),
        Some("four-mutex") => four_mutex(),
        _ => 0,
    };
    println!("{turns} turns");
}
