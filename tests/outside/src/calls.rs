//! One function for each exported call: lends the inputs behind fences, calls, and compares the return and all memory with the reference.

use crate::archive::{self, Convert, Four};
use crate::fence::{mark, Fence};
use crate::random::Random;
use crate::reference::set::Set;
use crate::reference::{build, convert, index, join, question, Answer};
use std::fmt::Debug;

pub type Outcome = Result<(), String>;

/// What a slice is made of.
pub trait Element: Copy + PartialEq + Debug {
    fn from(random: u64) -> Self;
}

impl Element for u8 {
    fn from(random: u64) -> u8 {
        random as u8
    }
}

impl Element for u32 {
    fn from(random: u64) -> u32 {
        random as u32
    }
}

/// A slice lent to be written: what stands before it, in it and behind it, all of it noise.
struct Room<T> {
    noise: Vec<T>,
    front: usize,
    length: usize,
}

impl<T: Element> Room<T> {
    fn new(random: &mut Random, length: usize) -> Room<T> {
        let (front, behind) = (random.below(4), if random.one_in(2) { 0 } else { 6 });
        let noise = (0..front + length + behind).map(|_| T::from(random.next())).collect();
        Room { noise, front, length }
    }

    /// All of that memory after a call that writes these elements.
    fn with(&self, written: &[T]) -> Vec<T> {
        let mut all = self.noise.clone();
        all[self.front..self.front + written.len()].copy_from_slice(written);
        all
    }
}

pub struct Caller {
    pub family: &'static &'static str,
    pub seed: u64,
    pub calls: u64,
    /// How many calls each refusal was expected of; 0 counts the calls that answer.
    pub expected: [u64; 23],
    pub show: bool,
    read: [Fence; 3],
    written: Fence,
}

/// The fields of a return: refusal, value, then the others, 0 where refused.
fn fields<T>(answer: &Answer<T>, others: usize, report: impl Fn(&T) -> Vec<u64>) -> Vec<u64> {
    match answer {
        Ok(given) => [vec![0, 0], report(given)].concat(),
        Err(refusal) => [vec![refusal.number, refusal.value], vec![0; others]].concat(),
    }
}

fn reported(answer: &Set) -> Vec<u64> {
    vec![answer.intervals().len() as u64, answer.records()]
}

fn hex(bytes: &[u8]) -> String {
    let shown: String = bytes.iter().take(2000).map(|b| format!("{b:02x}")).collect();
    format!("{} bytes {shown}{}", bytes.len(), if bytes.len() > 2000 { ".." } else { "" })
}

fn cells(cells: &[u32]) -> String {
    format!("{} cells {:?}{}", cells.len(), &cells[..cells.len().min(400)], if cells.len() > 400 { ".." } else { "" })
}

impl Caller {
    pub fn new() -> Caller {
        let read = [Fence::new(), Fence::new(), Fence::new()];
        Caller { family: &"", seed: 0, calls: 0, expected: [0; 23], show: false, read, written: Fence::new() }
    }

    /// Lends a slice to be read. With every other seed an empty one is the null pointer, since a pointer of length 0 is not followed.
    fn to_read<T: Element>(&self, which: usize, elements: &[T]) -> *const T {
        let at = self.read[which].lend(elements);
        if elements.is_empty() && self.seed % 2 == 1 {
            std::ptr::null()
        } else {
            at
        }
    }

    fn to_write<T: Element>(&self, room: &Room<T>) -> *mut T {
        let at = self.written.lend(&room.noise);
        if room.length == 0 && self.seed % 2 == 1 {
            std::ptr::null_mut()
        } else {
            unsafe { at.add(room.front) }
        }
    }

    fn begin(&mut self, call: &'static &'static str, inputs: &dyn Fn() -> String) {
        mark(self.family, call, self.seed);
        self.calls += 1;
        if self.show {
            println!("{call}: {}", inputs());
        }
    }

    fn fail(&self, call: &str, what: String, inputs: &dyn Fn() -> String) -> Outcome {
        Err(format!("{call}, seed {}: {what}\n  input: {}\n  again: --only {} --seed {} --cases 1", self.seed, inputs(), self.family, self.seed))
    }

    fn same(&mut self, call: &str, expected: Vec<u64>, got: Vec<u64>, inputs: &dyn Fn() -> String) -> Outcome {
        self.expected[expected[0] as usize] += 1;
        if expected == got {
            return Ok(());
        }
        self.fail(call, format!("returned {got:?}, and not {expected:?}"), inputs)
    }

    fn kept<T: Element>(&self, call: &str, which: usize, lent: &[T], inputs: &dyn Fn() -> String) -> Outcome {
        if self.read[which].now::<T>(lent.len()) == lent {
            return Ok(());
        }
        self.fail(call, "changed memory that was lent to be read".to_string(), inputs)
    }

    fn wrote<T: Element>(&self, call: &str, room: &Room<T>, written: &[T], inputs: &dyn Fn() -> String) -> Outcome {
        let expected = room.with(written);
        let now = self.written.now::<T>(expected.len());
        match (0..expected.len()).find(|&i| now[i] != expected[i]) {
            None => Ok(()),
            Some(i) => {
                let place = i as i64 - room.front as i64;
                self.fail(call, format!("element {place} of {} is {:?}, and not {:?}", room.length, now[i], expected[i]), inputs)
            }
        }
    }

    pub fn check(&mut self, bytes: &[u8]) -> Outcome {
        let Some(call) = archive::CHECK else { return Ok(()) };
        let inputs = || format!("index {}", hex(bytes));
        let expected = fields(&index::read(bytes), 0, |_| vec![]);
        self.begin(&"naburain_check", &inputs);
        let got = unsafe { call(self.to_read(0, bytes), bytes.len()) };
        self.same("naburain_check", expected, got.into(), &inputs)?;
        self.kept("naburain_check", 0, bytes, &inputs)
    }

    pub fn lookup(&mut self, bytes: &[u8], word: &[u8]) -> Outcome {
        let Some(call) = archive::LOOKUP else { return Ok(()) };
        let inputs = || format!("index {}, word {}", hex(bytes), hex(word));
        let expected = fields(&index::lookup(bytes, word), 1, |&entry| vec![entry]);
        self.begin(&"naburain_lookup", &inputs);
        let got = unsafe { call(self.to_read(0, bytes), bytes.len(), self.to_read(1, word), word.len()) };
        self.same("naburain_lookup", expected, got.into(), &inputs)?;
        self.kept("naburain_lookup", 0, bytes, &inputs)?;
        self.kept("naburain_lookup", 1, word, &inputs)
    }

    pub fn word(&mut self, bytes: &[u8], entry: u32) -> Outcome {
        let Some(call) = archive::WORD else { return Ok(()) };
        let inputs = || format!("index {}, entry {entry}", hex(bytes));
        let expected = fields(&index::word(bytes, entry), 2, |&(start, length)| vec![start, length]);
        self.begin(&"naburain_word", &inputs);
        let got = unsafe { call(self.to_read(0, bytes), bytes.len(), entry) };
        self.same("naburain_word", expected, got.into(), &inputs)?;
        self.kept("naburain_word", 0, bytes, &inputs)
    }

    pub fn probe(&mut self, bytes: &[u8], entry: u32, a: u32, b: u32) -> Outcome {
        let Some(call) = archive::PROBE else { return Ok(()) };
        let inputs = || format!("index {}, entry {entry}, a {a}, b {b}", hex(bytes));
        let expected = fields(&index::probe(bytes, entry, a, b), 2, |&(below, overlapping)| vec![below, overlapping]);
        self.begin(&"naburain_probe", &inputs);
        let got = unsafe { call(self.to_read(0, bytes), bytes.len(), entry, a, b) };
        self.same("naburain_probe", expected, got.into(), &inputs)?;
        self.kept("naburain_probe", 0, bytes, &inputs)
    }

    /// Both methods of a union or an intersection.
    pub fn join(&mut self, bytes: &[u8], how: join::Join, entries: &[u32], room: usize) -> Outcome {
        let methods: [(&'static &'static str, Option<archive::Join>); 2] = match how {
            join::Join::Union => {
                [(&"naburain_union_scan_line", archive::UNION_SCAN_LINE), (&"naburain_union_active_interval", archive::UNION_ACTIVE_INTERVAL)]
            }
            join::Join::Intersection => [
                (&"naburain_intersection_twin_heap", archive::INTERSECTION_TWIN_HEAP),
                (&"naburain_intersection_probing", archive::INTERSECTION_PROBING),
            ],
        };
        let answer = join::join(bytes, how, entries).and_then(|answer| join::fit(answer, room));
        let inputs = || format!("index {}, entries {entries:?}, room for {room} cells", hex(bytes));
        for (name, method) in methods {
            let Some(call) = method else { continue };
            let lent: Room<u32> = Room::new(&mut Random::new(!self.seed), room);
            self.begin(name, &inputs);
            let out = self.to_write(&lent);
            let at = (self.to_read(0, bytes), self.to_read(1, entries));
            let got = unsafe { call(at.0, bytes.len(), at.1, entries.len(), out, room) };
            self.answered(name, &answer, got, &lent, &inputs)?;
            self.kept(name, 0, bytes, &inputs)?;
            self.kept(name, 1, entries, &inputs)?;
        }
        Ok(())
    }

    fn answered(&mut self, name: &str, answer: &Answer<Set>, got: Four, lent: &Room<u32>, inputs: &dyn Fn() -> String) -> Outcome {
        self.same(name, fields(answer, 2, reported), got.into(), inputs)?;
        let written = answer.as_ref().map(Set::cells).unwrap_or_default();
        self.wrote(name, lent, &written, inputs)
    }

    pub fn ask(&mut self, bytes: &[u8], rule: u32, asked: &[u8], room: usize) -> Outcome {
        let Some(call) = archive::ASK else { return Ok(()) };
        let answer = question::ask(bytes, rule, asked).and_then(|answer| join::fit(answer, room));
        let text = String::from_utf8_lossy(asked);
        let inputs = || format!("index {}, rule {rule}, question {text:?} {}, room for {room} cells", hex(bytes), hex(asked));
        let lent: Room<u32> = Room::new(&mut Random::new(!self.seed), room);
        self.begin(&"naburain_ask", &inputs);
        let out = self.to_write(&lent);
        let at = (self.to_read(0, bytes), self.to_read(1, asked));
        let got = unsafe { call(at.0, bytes.len(), rule, at.1, asked.len(), out, room) };
        self.answered("naburain_ask", &answer, got, &lent, &inputs)?;
        self.kept("naburain_ask", 0, bytes, &inputs)?;
        self.kept("naburain_ask", 1, asked, &inputs)
    }

    pub fn to_intervals(&mut self, numbers: &[u32], room: usize) -> Outcome {
        let answer = convert::to_intervals(numbers, room);
        self.convert(&"naburain_to_intervals", archive::TO_INTERVALS, numbers, room, answer, 2)
    }

    pub fn to_numbers(&mut self, cells: &[u32], room: usize) -> Outcome {
        let answer = convert::to_numbers(cells, room);
        self.convert(&"naburain_to_numbers", archive::TO_NUMBERS, cells, room, answer, 1)
    }

    fn convert(
        &mut self,
        name: &'static &'static str,
        call: Option<Convert>,
        given: &[u32],
        room: usize,
        answer: Answer<Vec<u32>>,
        each: usize,
    ) -> Outcome {
        let Some(call) = call else { return Ok(()) };
        let inputs = || format!("{}, room for {room} cells", cells(given));
        let lent: Room<u32> = Room::new(&mut Random::new(!self.seed), room);
        self.begin(name, &inputs);
        let out = self.to_write(&lent);
        let got = unsafe { call(self.to_read(0, given), given.len(), out, room) };
        self.same(name, fields(&answer, 1, |written| vec![(written.len() / each) as u64]), got.into(), &inputs)?;
        self.wrote(name, &lent, &answer.unwrap_or_default(), &inputs)?;
        self.kept(name, 0, given, &inputs)
    }

    pub fn build(&mut self, highest: u32, words: &[u8], counts: &[u32], numbers: &[u32], room: usize) -> Outcome {
        let Some(call) = archive::BUILD else { return Ok(()) };
        let answer = build::build(highest, words, counts, numbers).and_then(|bytes| build::fit(bytes, room));
        let inputs = || {
            let text = String::from_utf8_lossy(&words[..words.len().min(400)]);
            format!("N {highest}, words {text:?} {}, counts {}, numbers {}, room for {room} bytes", hex(words), cells(counts), cells(numbers))
        };
        let lent: Room<u8> = Room::new(&mut Random::new(!self.seed), room);
        self.begin(&"naburain_build", &inputs);
        let out = self.to_write(&lent);
        let at = (self.to_read(0, words), self.to_read(1, counts), self.to_read(2, numbers));
        let got = unsafe { call(highest, at.0, words.len(), at.1, counts.len(), at.2, numbers.len(), out, room) };
        self.same("naburain_build", fields(&answer, 1, |bytes| vec![bytes.len() as u64]), got.into(), &inputs)?;
        self.wrote("naburain_build", &lent, &answer.unwrap_or_default(), &inputs)?;
        self.kept("naburain_build", 0, words, &inputs)?;
        self.kept("naburain_build", 1, counts, &inputs)?;
        self.kept("naburain_build", 2, numbers, &inputs)
    }
}
