//! The messages of `ring.c`, `all.c` and `fanin.c` in plain Rust: a thread for each process, one `sync_channel(64)` for each, calls that
//! block, and nothing is logged.
//!
//!     channels ring|all|fanin PROCESSES ROUNDS

use std::sync::mpsc::{sync_channel, Receiver, SyncSender};
use std::thread;

struct Message {
    _from: u32,
    _number: u32,
    body: Vec<u8>,
}

struct Process {
    own: usize,
    to: Vec<SyncSender<Message>>,
    from_all: Receiver<Message>,
}

impl Process {
    fn send(&self, to: usize, value: u32) {
        let message = Message {
            _from: self.own as u32,
            _number: 0,
            body: value.to_le_bytes().to_vec(),
        };
        // A receiver that has ended takes nothing more.
        let _ = self.to[to].send(message);
    }

    fn receive(&self) -> u32 {
        let message = self.from_all.recv().expect("a sender is left");
        u32::from_le_bytes(message.body[..4].try_into().expect("four bytes"))
    }

    fn ring(&self, rounds: u32) -> u32 {
        let next = (self.own + 1) % self.to.len();
        let mut number = 0;
        if self.own == 0 {
            self.send(next, number);
        }
        for round in 0..rounds {
            number = self.receive() + 1;
            if self.own != 0 || round + 1 < rounds {
                self.send(next, number);
            }
        }
        number
    }

    fn all(&self, rounds: u32) -> u32 {
        let mut sum = 0u32;
        for round in 0..rounds {
            for to in 0..self.to.len() {
                self.send(to, round);
            }
            for _ in 0..self.to.len() {
                sum = sum.wrapping_add(self.receive());
            }
        }
        sum
    }

    fn fanin(&self, rounds: u32) -> u32 {
        let mut sum = 0u32;
        if self.own == 0 {
            for _ in 0..rounds as usize * (self.to.len() - 1) {
                sum = sum.wrapping_add(self.receive());
            }
        } else {
            for round in 0..rounds {
                self.send(0, round);
            }
        }
        sum
    }
}

fn main() {
    let arguments: Vec<String> = std::env::args().collect();
    let [_, kind, processes, rounds] = &arguments[..] else {
        panic!("channels ring|all|fanin PROCESSES ROUNDS")
    };
    let processes: usize = processes.parse().expect("a number");
    let rounds: u32 = rounds.parse().expect("a number");
    let work: fn(&Process, u32) -> u32 = match kind.as_str() {
        "ring" => Process::ring,
        "all" => Process::all,
        "fanin" => Process::fanin,
        _ => panic!("ring, all or fanin"),
    };
    let (to, from): (Vec<_>, Vec<_>) = (0..processes).map(|_| sync_channel(64)).unzip();
    let threads: Vec<_> = from
        .into_iter()
        .enumerate()
        .map(|(own, from_all)| {
            let process = Process {
                own,
                to: to.clone(),
                from_all,
            };
            thread::spawn(move || work(&process, rounds))
        })
        .collect();
    drop(to);
    let sum = threads
        .into_iter()
        .fold(0u32, |sum, thread| sum.wrapping_add(thread.join().expect("it ends")));
    println!("{sum}");
}
