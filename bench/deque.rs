// Coroutines scheduled into a home over std's mutex and a deque, to stand beside the table of coroutines: each has a mark, so that it
// stands in the deque once. `same` schedules 32 by the home's thread, takes the deque and begins each; in `other` another thread
// schedules, trying again where the mark is set. It prints how many were begun.
use std::collections::VecDeque;
use std::mem;
use std::sync::Mutex;
use std::thread;

const SHARED: usize = 32;
const ROUNDS: u32 = 40_000;
const WAKES: usize = 200_000;

struct Inner {
    marks: [bool; SHARED + 1],
    states: [Option<u64>; SHARED + 1],
    queue: VecDeque<usize>,
}

struct Table {
    inner: Mutex<Inner>,
}

impl Table {
    fn build() -> Table {
        let queue = VecDeque::with_capacity(SHARED + 1);
        Table { inner: Mutex::new(Inner { marks: [false; SHARED + 1], states: [None; SHARED + 1], queue }) }
    }

    fn schedule(&self, co: usize, state: Option<u64>) -> bool {
        let mut inner = self.inner.lock().unwrap();
        if inner.marks[co] {
            return false;
        }
        inner.marks[co] = true;
        inner.states[co] = state;
        inner.queue.push_back(co);
        true
    }

    fn take_all(&self, run: &mut VecDeque<usize>) {
        mem::swap(&mut self.inner.lock().unwrap().queue, run);
    }

    fn begin(&self, run: &mut VecDeque<usize>) -> Option<(usize, Option<u64>)> {
        let co = run.pop_front()?;
        let mut inner = self.inner.lock().unwrap();
        inner.marks[co] = false;
        Some((co, inner.states[co].take()))
    }
}

fn same() -> u64 {
    let table = Table::build();
    let mut run = VecDeque::with_capacity(SHARED + 1);
    let mut count = 0;
    for _ in 0..ROUNDS {
        for co in 0..SHARED {
            table.schedule(co, None);
        }
        table.take_all(&mut run);
        while table.begin(&mut run).is_some() {
            count += 1;
        }
    }
    count
}

fn wake(table: &Table, co: usize) {
    while !table.schedule(co, None) {
        thread::yield_now();
    }
}

fn other() -> u64 {
    let table = Table::build();
    let mut run = VecDeque::with_capacity(SHARED + 1);
    let mut count = 0;
    let mut is_last = false;
    thread::scope(|scope| {
        scope.spawn(|| {
            (0..WAKES).for_each(|turn| wake(&table, turn % SHARED));
            wake(&table, SHARED);
        });
        while !is_last {
            table.take_all(&mut run);
            while let Some((co, _)) = table.begin(&mut run) {
                count += 1;
                is_last |= co == SHARED;
            }
        }
    });
    count
}

fn main() {
    let count = match std::env::args().nth(1).as_deref() {
        Some("same") => same(),
        Some("other") => other(),
        _ => 0,
    };
    println!("{count} begun");
}
