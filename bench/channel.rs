// Boxed closures through the standard library's channel, to stand beside one-shots: `one` sends a closure and calls it, over and
// over; `two` has two threads that send while the main thread calls, over a channel without a bound; `two-bounded` over one of 16
// places. It prints how many were called.
use std::sync::mpsc::{Receiver, channel, sync_channel};
use std::thread;

const ROUNDS: u64 = 1_000_000;
const EACH: u64 = 500_000;

struct Calls {
    count: u64,
    sum: u64,
}

type Job = Box<dyn FnOnce(&mut Calls) + Send>;

fn job(number: u64) -> Job {
    Box::new(move |calls: &mut Calls| {
        calls.count += 1;
        calls.sum = calls.sum.wrapping_add(number);
    })
}

fn one(calls: &mut Calls) {
    let (sender, receiver) = channel::<Job>();
    for number in 0..ROUNDS {
        sender.send(job(number)).unwrap();
        while let Ok(job) = receiver.try_recv() {
            job(calls);
        }
    }
}

fn receive(receiver: Receiver<Job>, calls: &mut Calls) {
    while calls.count < 2 * EACH {
        while let Ok(job) = receiver.try_recv() {
            job(calls);
        }
    }
}

fn send_from_two(send: impl Fn(Job) + Clone + Send + 'static, receiver: Receiver<Job>, calls: &mut Calls) {
    let senders = [send.clone(), send].map(|send| thread::spawn(move || (0..EACH).for_each(|number| send(job(number)))));
    receive(receiver, calls);
    for sender in senders {
        sender.join().unwrap();
    }
}

fn two(calls: &mut Calls) {
    let (sender, receiver) = channel::<Job>();
    send_from_two(move |job| sender.send(job).unwrap(), receiver, calls);
}

fn two_bounded(calls: &mut Calls) {
    let (sender, receiver) = sync_channel::<Job>(16);
    send_from_two(move |job| sender.send(job).unwrap(), receiver, calls);
}

fn main() {
    let mut calls = Calls { count: 0, sum: 0 };
    match std::env::args().nth(1).as_deref() {
        Some("one") => one(&mut calls),
        Some("two") => two(&mut calls),
        Some("two-bounded") => two_bounded(&mut calls),
        _ => {}
    }
    println!("{} calls, sum {}", calls.count, calls.sum);
}
