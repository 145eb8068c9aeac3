//! The greatest recoverable state in plain Rust, over rows in sorted vectors. It answers as `omlog frontier` does.
//!
//!     climb < SCRIPT

use std::collections::VecDeque;
use std::fmt::Write;
use std::io::Read;

const MOST: usize = 16;

type Vector = [u32; MOST];

struct Row {
    interval: u32,
    vector: Vector,
    has_log: bool,
    has_checkpoint: bool,
    stable: bool,
}

enum Answer {
    Noted,
    Raised,
    Known,
    BadVector,
    Differs,
    Disorder(u32),
    Stranger,
}

struct Records {
    n: usize,
    rows: Vec<Vec<Row>>,
    stable: Vec<Vec<u32>>,
    state: Vector,
}

impl Records {
    fn new(n: usize) -> Records {
        let first = || Row {
            interval: 0,
            vector: [0; MOST],
            has_log: false,
            has_checkpoint: true,
            stable: true,
        };
        Records {
            n,
            rows: (0..n).map(|_| vec![first()]).collect(),
            stable: vec![vec![0]; n],
            state: [0; MOST],
        }
    }

    fn leq(&self, a: &Vector, b: &Vector) -> bool {
        (0..self.n).all(|i| a[i] <= b[i])
    }

    fn note(&mut self, is_checkpoint: bool, pid: usize, interval: u32, vector: Vector) -> Answer {
        if pid >= self.n {
            return Answer::Stranger;
        }
        if vector[pid] != interval || (!is_checkpoint && interval == 0) {
            return Answer::BadVector;
        }
        let place = match self.add(is_checkpoint, pid, interval, vector) {
            Ok(place) => place,
            Err(answer) => return answer,
        };
        let before = self.state;
        if let Some(least) = self.make_stable(pid, place) {
            self.climb(pid, least);
        }
        if self.state == before {
            Answer::Noted
        } else {
            Answer::Raised
        }
    }

    fn add(&mut self, is_checkpoint: bool, pid: usize, interval: u32, vector: Vector) -> Result<usize, Answer> {
        let rows = &self.rows[pid];
        let place = match rows.last() {
            Some(last) if last.interval < interval => Err(rows.len()),
            _ => rows.binary_search_by_key(&interval, |row| row.interval),
        };
        match place {
            Ok(place) => {
                let row = &mut self.rows[pid][place];
                if row.vector != vector {
                    return Err(Answer::Differs);
                }
                let had = if is_checkpoint {
                    &mut row.has_checkpoint
                } else {
                    &mut row.has_log
                };
                if std::mem::replace(had, true) {
                    return Err(Answer::Known);
                }
                Ok(place)
            }
            Err(place) => {
                if place > 0 && !self.leq(&rows[place - 1].vector, &vector) {
                    return Err(Answer::Disorder(rows[place - 1].interval));
                }
                if place < rows.len() && !self.leq(&vector, &rows[place].vector) {
                    return Err(Answer::Disorder(rows[place].interval));
                }
                let row = Row {
                    interval,
                    vector,
                    has_log: !is_checkpoint,
                    has_checkpoint: is_checkpoint,
                    stable: false,
                };
                self.rows[pid].insert(place, row);
                Ok(place)
            }
        }
    }

    /// Marks what is stable from this place on, and says the least interval of it.
    fn make_stable(&mut self, pid: usize, from: usize) -> Option<u32> {
        let (rows, stable) = (&mut self.rows[pid], &mut self.stable[pid]);
        let mut least = None;
        for i in from..rows.len() {
            let follows = i > 0 && rows[i - 1].stable && rows[i - 1].interval + 1 == rows[i].interval;
            let row = &mut rows[i];
            if row.stable || !(row.has_checkpoint || row.has_log && follows) {
                break;
            }
            row.stable = true;
            least = least.or(Some(row.interval));
            match stable.last() {
                Some(&last) if last < row.interval => stable.push(row.interval),
                _ => {
                    let place = stable.binary_search(&row.interval).unwrap_err();
                    stable.insert(place, row.interval);
                }
            }
        }
        least
    }

    fn least_from(&self, pid: usize, interval: u32) -> Option<u32> {
        let stable = &self.stable[pid];
        stable.get(stable.partition_point(|&other| other < interval)).copied()
    }

    fn vector(&self, pid: usize, interval: u32) -> &Vector {
        let rows = &self.rows[pid];
        &rows[rows.binary_search_by_key(&interval, |row| row.interval).expect("a row")].vector
    }

    /// Raises the process to this interval, and the others to what that depends on, where all of it is stable.
    fn raise(&mut self, pid: usize, interval: u32) -> bool {
        let mut state = self.state;
        state[pid] = interval;
        let mut queue = VecDeque::from([pid]);
        while let Some(pid) = queue.pop_front() {
            let vector = *self.vector(pid, state[pid]);
            for other in 0..self.n {
                if vector[other] <= state[other] {
                    continue;
                }
                let Some(least) = self.least_from(other, vector[other]) else {
                    return false;
                };
                state[other] = least;
                if !queue.contains(&other) {
                    queue.push_back(other);
                }
            }
        }
        self.state = state;
        true
    }

    fn climb(&mut self, pid: usize, least: u32) {
        if least <= self.state[pid] || !self.raise(pid, least) {
            return;
        }
        let mut has_risen = true;
        while has_risen {
            has_risen = false;
            for pid in 0..self.n {
                while let Some(next) = self.least_from(pid, self.state[pid] + 1) {
                    if !self.raise(pid, next) {
                        break;
                    }
                    has_risen = true;
                }
            }
        }
    }
}

fn line(text: &mut String, word: &str, n: usize, state: &Vector) {
    text.push_str(word);
    for interval in &state[..n] {
        write!(text, " {interval}").expect("room");
    }
    text.push('\n');
}

fn main() {
    let mut script = String::new();
    std::io::stdin().read_to_string(&mut script).expect("a script");
    let mut lines = script.lines();
    let n: usize = lines
        .next()
        .and_then(|l| l.strip_prefix("procs "))
        .expect("procs N")
        .parse()
        .expect("a number");
    let mut records = Records::new(n);
    let mut text = String::new();
    for line_of in lines {
        let mut words = line_of.split_whitespace();
        let is_checkpoint = words.next() == Some("ckpt");
        let mut numbers = words.map(|word| word.parse::<u32>().expect("a number"));
        let (pid, interval) = (
            numbers.next().expect("a process") as usize,
            numbers.next().expect("an interval"),
        );
        let mut vector = [0; MOST];
        for (place, number) in numbers.enumerate() {
            vector[place] = number;
        }
        let word = match records.note(is_checkpoint, pid, interval, vector) {
            Answer::Noted => "noted:".to_string(),
            Answer::Raised => "raised:".to_string(),
            Answer::Known => "known:".to_string(),
            Answer::BadVector => "bad-vector:".to_string(),
            Answer::Differs => "differs:".to_string(),
            Answer::Disorder(other) => format!("disorder {other}:"),
            Answer::Stranger => "stranger:".to_string(),
        };
        line(&mut text, &word, n, &records.state);
    }
    line(&mut text, "recovery", n, &records.state);
    print!("{text}");
}
