// A rival for the benches, unverified and using only std: it counts what `vcdkit check` counts, on
// dumps without faults. It looks at tokens where they lie in the chunk, and finds short codes in a
// table by their number. At a fault it stops with status 1, without a message. speed.py
// builds it with `rustc -O`.
use std::collections::HashMap;
use std::io::Read;

// Codes whose number is below this have an entry in the table; others are in a map.
const TABLE: usize = 1 << 20;

#[derive(Default)]
struct Rival {
    counts: [u64; 6],
    last: Option<u64>,
    phrase: Vec<Vec<u8>>,
    skipping: bool,
    in_body: bool,
    // Digits or a real text, whose code is still to come: how many digits, 0 for a real text.
    waiting: Option<usize>,
    // The size of each code, 0 for one that is not declared, and u32::MAX for an event.
    table: Vec<u32>,
    others: HashMap<Vec<u8>, u32>,
}

fn stop() -> ! {
    std::process::exit(1)
}

// A code as a number in base 94, its first byte lowest, as simulators count.
fn number_of(code: &[u8]) -> usize {
    code.iter()
        .rev()
        .fold(0, |number, byte| number.saturating_mul(94).saturating_add(usize::from(*byte) - 32))
}

fn is_digit(byte: &u8) -> bool {
    matches!(byte, b'0' | b'1' | b'x' | b'X' | b'z' | b'Z')
}

impl Rival {
    fn declare(&mut self) {
        let phrase = std::mem::take(&mut self.phrase);
        match (&phrase[0][..], phrase.len()) {
            (b"$scope", 3) => self.counts[0] += 1,
            (b"$var", 5..) => {
                self.counts[1] += 1;
                let size = std::str::from_utf8(&phrase[2]).ok().and_then(|s| s.parse().ok());
                let size = size.unwrap_or_else(|| stop());
                let size = if phrase[1] == b"event" { u32::MAX } else { size };
                let number = number_of(&phrase[3]);
                let entry = match self.table.get_mut(number) {
                    Some(entry) => entry,
                    None => self.others.entry(phrase[3].clone()).or_insert(0),
                };
                self.counts[2] += u64::from(*entry == 0);
                *entry = size;
            }
            (b"$enddefinitions", 1) => self.in_body = true,
            _ => {}
        }
    }

    fn change(&mut self, code: &[u8], digits: usize) {
        let size = match self.table.get(number_of(code)) {
            Some(size) => *size,
            None => self.others.get(code).copied().unwrap_or(0),
        };
        if size == 0 || digits > size as usize {
            stop();
        }
        self.counts[5] += 1;
    }

    fn word(&mut self, word: &[u8]) {
        if word == b"$end" {
            self.skipping = false;
        } else if word == b"$comment" {
            self.skipping = true;
        } else if [&b"$dumpvars"[..], b"$dumpall", b"$dumpon", b"$dumpoff"].contains(&word) {
            self.counts[4] += 1;
        } else {
            stop();
        }
    }

    fn mark(&mut self, digits: &[u8]) {
        let mut time: u64 = 0;
        for digit in digits {
            if !digit.is_ascii_digit() {
                stop();
            }
            time = time * 10 + u64::from(digit - b'0');
        }
        if digits.is_empty() || self.last.is_some_and(|last| time < last) {
            stop();
        }
        self.last = Some(time);
        self.counts[3] += 1;
    }

    fn take(&mut self, token: &[u8]) {
        if !self.in_body {
            if token == b"$end" && !self.phrase.is_empty() {
                self.declare();
            } else {
                self.phrase.push(token.to_vec());
            }
        } else if self.skipping {
            self.skipping = token != b"$end";
        } else if let Some(digits) = self.waiting.take() {
            self.change(token, digits);
        } else {
            match token[0] {
                b'0' | b'1' | b'x' | b'X' | b'z' | b'Z' => self.change(&token[1..], 1),
                b'b' | b'B' if token.len() > 1 && token[1..].iter().all(is_digit) => {
                    self.waiting = Some(token.len() - 1)
                }
                b'r' | b'R' => self.waiting = Some(0),
                b'#' => self.mark(&token[1..]),
                _ => self.word(token),
            }
        }
    }
}

fn is_white(byte: u8) -> bool {
    byte == b' ' || (9..=13).contains(&byte)
}

fn main() {
    let mut rival = Rival { table: vec![0; TABLE], ..Rival::default() };
    let mut chunk = vec![0u8; 1 << 21];
    let mut held = 0;
    let mut input = std::io::stdin().lock();
    loop {
        let read = input.read(&mut chunk[held..]).unwrap_or_else(|_| stop());
        let end = held + read;
        let mut begin = 0;
        for at in held..end {
            if is_white(chunk[at]) {
                if begin < at {
                    rival.take(&chunk[begin..at]);
                }
                begin = at + 1;
            }
        }
        if read == 0 {
            if begin < end {
                rival.take(&chunk[begin..end]);
            }
            break;
        }
        chunk.copy_within(begin..end, 0);
        held = end - begin;
    }
    let names = ["scopes", "variables", "codes", "times", "sections", "changes"];
    for (name, count) in names.iter().zip(rival.counts) {
        println!("{name} {count}");
    }
    match rival.last {
        Some(last) => println!("last {last}"),
        None => println!("last -"),
    }
}
