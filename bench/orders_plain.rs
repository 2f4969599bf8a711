//! The program `orders` in plain Rust: `rustc -O orders_plain.rs`, to be run in a folder with `book.bin` and `orders.txt`.
use std::collections::BTreeMap;
use std::fmt;
use std::fs;
use std::io::{self, Write};

const MOST_MODELS: u16 = 1024;
const MOST_DERIVATIONS: usize = 2048;
const MOST_HOLDS: usize = 64;
const MOST_BYTES: usize = 32768;

enum Answer {
    Done,
    Carve,
    Stop(u16),
}

impl fmt::Display for Answer {
    fn fmt(&self, f: &mut fmt::Formatter) -> fmt::Result {
        match self {
            Answer::Done => write!(f, "ok"),
            Answer::Carve => write!(f, "carve"),
            Answer::Stop(model) => write!(f, "stop {model}"),
        }
    }
}

/// An answer, or the number of a refusal.
type Told = Result<Answer, u8>;

struct Shop {
    taken: Vec<Vec<u16>>,
    derivations: usize,
    holders: BTreeMap<u16, u16>,
    current: bool,
}

impl Shop {
    fn open(models: u16, derivations: &[(u16, u16)]) -> Shop {
        let mut taken = vec![Vec::new(); models as usize];
        for &(u, v) in derivations {
            taken[u as usize].push(v);
        }
        Shop { taken, derivations: derivations.len(), holders: BTreeMap::new(), current: false }
    }

    fn check_models(&self, models: &[u16]) -> Result<(), u8> {
        if models.iter().all(|m| (*m as usize) < self.taken.len()) { Ok(()) } else { Err(2) }
    }

    fn enter(&mut self, u: u16, v: u16) -> Told {
        self.check_models(&[u, v])?;
        if u == v {
            return Err(3);
        }
        if self.taken[u as usize].contains(&v) {
            return Err(4);
        }
        if self.derivations == MOST_DERIVATIONS {
            return Err(5);
        }
        self.taken[u as usize].push(v);
        self.derivations += 1;
        self.current = false;
        Ok(Answer::Done)
    }

    fn strike(&mut self, u: u16, v: u16) -> Told {
        self.check_models(&[u, v])?;
        let row = &mut self.taken[u as usize];
        let place = row.iter().position(|t| *t == v).ok_or(6)?;
        row.swap_remove(place);
        self.derivations -= 1;
        self.current = false;
        Ok(Answer::Done)
    }

    fn index(&mut self) -> Told {
        self.current = true;
        Ok(Answer::Done)
    }

    fn hold(&mut self, model: u16, holder: u16) -> Told {
        self.check_models(&[model])?;
        if self.holders.contains_key(&model) {
            return Err(9);
        }
        if self.holders.len() == MOST_HOLDS {
            return Err(10);
        }
        self.holders.insert(model, holder);
        Ok(Answer::Done)
    }

    fn release(&mut self, model: u16, holder: u16) -> Told {
        self.check_models(&[model])?;
        match self.holders.get(&model) {
            None => Err(11),
            Some(other) if *other != holder => Err(12),
            Some(_) => {
                self.holders.remove(&model);
                Ok(Answer::Done)
            }
        }
    }

    fn order(&self, model: u16) -> Told {
        self.check_models(&[model])?;
        if !self.current {
            return Err(13);
        }
        match self.holders.keys().find(|held| self.leads(**held, model)) {
            Some(held) => Ok(Answer::Stop(*held)),
            None => Ok(Answer::Carve),
        }
    }

    fn leads(&self, from: u16, to: u16) -> bool {
        let mut seen = vec![false; self.taken.len()];
        let mut open = vec![from];
        seen[from as usize] = true;
        while let Some(u) = open.pop() {
            if u == to {
                return true;
            }
            for &v in &self.taken[u as usize] {
                if !seen[v as usize] {
                    seen[v as usize] = true;
                    open.push(v);
                }
            }
        }
        false
    }

    fn answer(&mut self, line: &[u8]) -> Told {
        let words: Vec<&[u8]> = line.split(|b| *b == b' ').collect();
        match words[..] {
            [b"E", u, v] => self.enter(number(u)?, number(v)?),
            [b"S", u, v] => self.strike(number(u)?, number(v)?),
            [b"I"] => self.index(),
            [b"H", m, p] => self.hold(number(m)?, number(p)?),
            [b"R", m, p] => self.release(number(m)?, number(p)?),
            [b"C", m] => self.order(number(m)?),
            _ => Err(18),
        }
    }
}

/// The number that a word writes: digits alone, at most five, no needless zero in front.
fn number(word: &[u8]) -> Result<u16, u8> {
    let plain = word.len() <= 5 && word.iter().all(u8::is_ascii_digit) && (word.len() == 1 || !word.starts_with(b"0"));
    if !plain {
        return Err(18);
    }
    std::str::from_utf8(word).ok().and_then(|text| text.parse().ok()).ok_or(18)
}

fn read_book(bytes: &[u8]) -> Result<(u16, Vec<(u16, u16)>), u8> {
    if bytes.len() < 4 {
        return Err(14);
    }
    let at = |place: usize| u16::from_le_bytes([bytes[2 * place], bytes[2 * place + 1]]);
    let (models, len) = (at(0), at(1) as usize);
    if models < 1 || models > MOST_MODELS {
        return Err(1);
    }
    if len > MOST_DERIVATIONS {
        return Err(15);
    }
    if bytes.len() != 4 + 4 * len {
        return Err(14);
    }
    let mut derivations = Vec::with_capacity(len);
    for place in 2..2 + len {
        let derivation = (at(place), at(place + len));
        if derivation.0 >= models || derivation.1 >= models {
            return Err(2);
        }
        if derivation.0 == derivation.1 {
            return Err(3);
        }
        if derivations.last().is_some_and(|before| derivation <= *before) {
            return Err(16);
        }
        derivations.push(derivation);
    }
    Ok((models, derivations))
}

fn answers(book: &[u8], orders: &[u8]) -> String {
    let (models, derivations) = match read_book(book) {
        Ok(read) => read,
        Err(number) => return format!("book {number}\n"),
    };
    if orders.len() > MOST_BYTES {
        return "no 19\n".to_string();
    }
    let mut shop = Shop::open(models, &derivations);
    let mut text = String::new();
    for line in orders.split_inclusive(|b| *b == b'\n') {
        match shop.answer(line.strip_suffix(b"\n").unwrap_or(line)) {
            Ok(answer) => text += &format!("{answer}\n"),
            Err(number) => text += &format!("no {number}\n"),
        }
    }
    text
}

/// The bytes of a file; a missing file counts as empty.
fn read(name: &str) -> io::Result<Vec<u8>> {
    match fs::read(name) {
        Err(error) if error.kind() == io::ErrorKind::NotFound => Ok(Vec::new()),
        read => read,
    }
}

fn main() -> io::Result<()> {
    let text = answers(&read("book.bin")?, &read("orders.txt")?);
    io::stdout().write_all(text.as_bytes())
}
