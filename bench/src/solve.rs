// The solver in plain Rust, by the same rounds: the yardstick for the benchmark.
pub trait Arena {
    fn count(&self) -> usize;
    fn even_side(&self) -> u8;
    fn owner(&self, v: usize) -> u8;
    fn priority(&self, v: usize) -> u16;
    fn degree(&self, v: usize) -> usize;
    fn successor(&self, v: usize, i: usize) -> usize;
}

pub struct Stored<'a> {
    pub bytes: &'a [u8],
    pub count: usize,
}

impl Stored<'_> {
    fn word(&self, i: usize) -> u16 {
        u16::from_le_bytes([self.bytes[i], self.bytes[i + 1]])
    }
}

impl Arena for Stored<'_> {
    fn count(&self) -> usize {
        self.count
    }
    fn even_side(&self) -> u8 {
        0
    }
    fn owner(&self, v: usize) -> u8 {
        if v < self.count { self.bytes[8 * v] } else { 0 }
    }
    fn priority(&self, v: usize) -> u16 {
        if v < self.count { self.word(8 * v + 2) } else { 0 }
    }
    fn degree(&self, v: usize) -> usize {
        if v < self.count { 2 } else { 0 }
    }
    fn successor(&self, v: usize, i: usize) -> usize {
        if v < self.count && i < 2 { self.word(8 * v + 4 + 2 * i) as usize } else { 0 }
    }
}

#[derive(Clone, Copy, PartialEq, Debug)]
pub struct Outcome {
    pub winner: u8,
    pub grade: u16,
    pub distance: u16,
    pub choice: u8,
}

const UNGRADED: u16 = 65535;

fn favours<X: Arena>(arena: &X, p: u16) -> u8 {
    if p % 2 == 0 { arena.even_side() } else { 1 - arena.even_side() }
}

fn near(o: Outcome, p: u16, d: u16) -> bool {
    o.grade == p && o.distance < d
}

fn joins<X: Arena>(arena: &X, out: &[Outcome], p: u16, d: u16, v: usize) -> bool {
    if out[v].grade != UNGRADED {
        false
    } else if d == 0 {
        arena.priority(v) == p
    } else if arena.owner(v) == favours(arena, p) {
        (0..arena.degree(v)).any(|i| near(out[arena.successor(v, i)], p, d))
    } else {
        (0..arena.degree(v)).all(|i| {
            let o = out[arena.successor(v, i)];
            o.grade < p || near(o, p, d)
        })
    }
}

fn round<X: Arena>(arena: &X, out: &mut [Outcome], p: u16, d: u16) -> bool {
    let mut found = false;
    for v in 0..arena.count() {
        if joins(arena, out, p, d, v) {
            out[v] = Outcome { winner: 0, grade: p, distance: d, choice: 0 };
            found = true;
        }
    }
    found
}

fn least_open<X: Arena>(arena: &X, out: &[Outcome]) -> Option<u16> {
    (0..arena.count()).filter(|&v| out[v].grade == UNGRADED).map(|v| arena.priority(v)).min()
}

fn choice<X: Arena>(arena: &X, out: &[Outcome], v: usize) -> u8 {
    let here = out[v];
    let degree = arena.degree(v);
    let found = if arena.owner(v) == favours(arena, here.grade) && here.distance > 0 {
        (0..degree).find(|&i| near(out[arena.successor(v, i)], here.grade, here.distance))
    } else {
        (0..degree).find(|&i| here.grade <= out[arena.successor(v, i)].grade)
    };
    found.unwrap_or(degree) as u8
}

// Solves, and answers how many rounds it took.
pub fn solve<X: Arena>(arena: &X, out: &mut [Outcome]) -> usize {
    let n = arena.count();
    for o in &mut out[..n] {
        *o = Outcome { winner: 0, grade: UNGRADED, distance: 0, choice: 0 };
    }
    let mut rounds = 0;
    while let Some(p) = least_open(arena, out) {
        let mut d = 0;
        while round(arena, out, p, d) {
            d += 1;
            rounds += 1;
        }
        rounds += 1;
    }
    for v in 0..n {
        let here = out[v];
        out[v] = Outcome {
            winner: favours(arena, here.grade),
            choice: choice(arena, out, v),
            ..here
        };
    }
    rounds
}
