//! The same search in plain Rust, for the time alone: `rustc -O search_plain.rs`.
use std::hint::black_box;
use std::time::Instant;

struct Successors {
    models: u16,
    targets: [u16; 2048],
    starts: [u16; 1025],
}

impl Successors {
    fn fill(&mut self, models: u16, derivations: &[(u16, u16)]) {
        let mut next = 0;
        for (i, d) in derivations.iter().enumerate() {
            self.targets[i] = d.1;
            while next <= d.0 as usize {
                self.starts[next] = i as u16;
                next += 1;
            }
        }
        while next <= models as usize {
            self.starts[next] = derivations.len() as u16;
            next += 1;
        }
        self.models = models;
    }

    fn mark_reached(&self, from: u16, marks: &mut [bool; 1024]) {
        marks.fill(false);
        if from >= self.models {
            return;
        }
        let mut queue = [0u16; 1024];
        marks[from as usize] = true;
        queue[0] = from;
        let mut head = 0;
        let mut tail = 1;
        while head < tail {
            let u = queue[head] as usize;
            head += 1;
            for &v in &self.targets[self.starts[u] as usize..self.starts[u + 1] as usize] {
                if !marks[v as usize] {
                    marks[v as usize] = true;
                    queue[tail] = v;
                    tail += 1;
                }
            }
        }
    }
}

fn next(seed: u32) -> u32 {
    seed.wrapping_mul(1664525).wrapping_add(1013904223)
}

fn typical() -> Vec<(u16, u16)> {
    let mut seed: u32 = 7;
    let mut out = Vec::new();
    for v in 1u16..740 {
        seed = next(seed);
        let back = (seed >> 16) as u16 % 40 + 1;
        out.push((if back > v { 0 } else { v - back }, v));
    }
    for _ in 0..51 {
        seed = next(seed);
        let u = (seed >> 16) as u16 % 740;
        seed = next(seed);
        let v = (seed >> 16) as u16 % 740;
        if u != v {
            out.push((u, v));
        }
    }
    out
}

#[inline(never)]
fn from_first(s: &Successors, marks: &mut [bool; 1024], times: u32) -> u64 {
    let mut sum = 0;
    for _ in 0..times {
        black_box(s).mark_reached(black_box(0), marks);
        sum += marks[5] as u64;
    }
    sum
}

#[inline(never)]
fn from_each(s: &Successors, marks: &mut [bool; 1024], times: u32) -> u64 {
    let mut sum = 0;
    for _ in 0..times {
        for u in 0..s.models {
            s.mark_reached(u, marks);
            sum += marks[5] as u64;
        }
    }
    sum
}

fn time_all(name: &str, models: u16, mut derivations: Vec<(u16, u16)>) {
    derivations.sort();
    derivations.dedup();
    let mut s = Successors { models: 0, targets: [0; 2048], starts: [0; 1025] };
    let mut marks = [false; 1024];
    let start = Instant::now();
    for _ in 0..2000 {
        s.fill(black_box(models), black_box(&derivations));
        black_box(&mut s);
    }
    let filled = start.elapsed().as_nanos() / 2000;
    let start = Instant::now();
    let a = from_first(&s, &mut marks, 20000);
    let first = start.elapsed().as_nanos() / 20000;
    let reached = marks.iter().filter(|m| **m).count();
    let start = Instant::now();
    let b = from_each(&s, &mut marks, 20);
    let each = start.elapsed().as_nanos() / 20480;
    println!("{name}: from 0 {first} ns, reaching {reached}; each model {each} ns; fill {filled} ns; sums {a} {b}");
}

fn main() {
    time_all("typical", 740, typical());
    time_all("chain", 1024, (1..1024).map(|v| (v - 1, v)).collect());
    time_all("circle", 1024, (0..1024).flat_map(|v| [(v, (v + 1) % 1024), (v, (v + 2) % 1024)]).collect());
    time_all("tree", 1024, (1..1024).map(|v| ((v - 1) / 2, v)).collect());
}
