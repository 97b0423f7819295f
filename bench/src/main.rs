// Times the proved solver against the same rounds in plain Rust, on the same arenas, in one run.
mod drafts;
mod solve;

use drafts::{Draft, Pair, Word};
use solve::{Arena, Outcome, Stored, solve};
use std::time::Instant;

unsafe extern "C" {
    fn colvaje_testing_solve(bytes: *const u8, len: usize, repeats: u32, out: *mut u8, out_len: usize) -> u32;
    fn colvaje_testing_accept(
        letters: u32, bytes: *const u8, len: usize, state: u32, prefix: *const u8, prefix_len: usize, period: *const u8,
        period_len: usize, repeats: u32,
    ) -> u32;
    fn colvaje_testing_contain(
        letters: u32, first: *const u8, first_len: usize, second: *const u8, second_len: usize, first_state: u32,
        second_state: u32, repeats: u32,
    ) -> u32;
}

fn vertex(owner: u8, priority: u16, left: usize, right: usize) -> [u8; 8] {
    let (p, l, r) = (priority.to_le_bytes(), (left as u16).to_le_bytes(), (right as u16).to_le_bytes());
    [owner, 0, p[0], p[1], l[0], l[1], r[0], r[1]]
}

// Each vertex leads to the one before it: as many rounds as vertices.
fn chain(n: usize) -> Vec<u8> {
    (0..n).flat_map(|v| vertex((v % 2) as u8, u16::from(v > 0), v.saturating_sub(1), v.saturating_sub(1))).collect()
}

// Random owners and targets, with so many priorities.
fn random(n: usize, priorities: u64, mut seed: u64) -> Vec<u8> {
    let mut next = move |below: u64| {
        seed ^= seed << 13;
        seed ^= seed >> 7;
        seed ^= seed << 17;
        seed % below
    };
    (0..n).flat_map(|_| vertex(next(2) as u8, next(priorities) as u16, next(n as u64) as usize, next(n as u64) as usize)).collect()
}

fn proved(bytes: &[u8], repeats: u32, out: &mut [u8]) -> f64 {
    let start = Instant::now();
    let code = unsafe { colvaje_testing_solve(bytes.as_ptr(), bytes.len(), repeats, out.as_mut_ptr(), out.len()) };
    assert_eq!(code, 0);
    start.elapsed().as_secs_f64()
}

fn plain(bytes: &[u8], repeats: u32, out: &mut [Outcome]) -> (f64, usize) {
    let arena = Stored { bytes, count: bytes.len() / 8 };
    let start = Instant::now();
    let mut rounds = 0;
    for _ in 0..repeats {
        rounds = solve(std::hint::black_box(&arena), std::hint::black_box(out));
    }
    (start.elapsed().as_secs_f64(), rounds)
}

fn same(bytes: &[u8], outcomes: &[Outcome]) -> bool {
    outcomes.iter().zip(bytes.chunks(6)).all(|(o, b)| {
        [o.winner, o.choice] == b[..2] && o.grade.to_le_bytes() == b[2..4] && o.distance.to_le_bytes() == b[4..6]
    })
}

fn compare(name: &str, bytes: &[u8], repeats: u32) {
    let n = bytes.len() / 8;
    let mut theirs = vec![0u8; 6 * n];
    let mut ours = vec![Outcome { winner: 0, grade: 0, distance: 0, choice: 0 }; n];
    // the best of several turns, the two taking turns
    let (mut a, mut b, mut rounds) = (f64::MAX, f64::MAX, 0);
    for _ in 0..7 {
        a = a.min(proved(bytes, repeats, &mut theirs));
        let (t, r) = plain(bytes, repeats, &mut ours);
        b = b.min(t);
        rounds = r;
    }
    assert!(same(&theirs, &ours), "{name}: the answers differ");
    let each = 1e9 / (n as f64 * rounds as f64 * f64::from(repeats));
    println!("{name:<28} {rounds:>6} {:>9.3} {:>9.3} {:>7.2}", a * each, b * each, a / b);
}

// Times a question that is asked through the library against the same arena in plain Rust.
fn question<X: Arena>(name: &str, arena: &X, start: usize, repeats: u32, ask: impl Fn(u32) -> u32, records: usize) {
    let n = arena.count();
    let mut ours = vec![Outcome { winner: 0, grade: 0, distance: 0, choice: 0 }; records];
    let (mut a, mut b, mut rounds, mut answer) = (f64::MAX, f64::MAX, 0, 0);
    for _ in 0..7 {
        let start = Instant::now();
        answer = ask(repeats);
        a = a.min(start.elapsed().as_secs_f64());
        let start = Instant::now();
        for _ in 0..repeats {
            rounds = solve(std::hint::black_box(arena), std::hint::black_box(&mut ours));
        }
        b = b.min(start.elapsed().as_secs_f64());
    }
    assert_eq!(answer, u32::from(ours[start].winner == 0), "{name}: the answers differ");
    let each = 1e9 / (n as f64 * rounds as f64 * f64::from(repeats));
    println!("{name:<28} {rounds:>6} {:>9.3} {:>9.3} {:>7.2}", a * each, b * each, a / b);
}

fn accept_at_the_limits() {
    let draft = Draft::full(2, 0, 128);
    let file = draft.records();
    let (prefix, period) = (vec![0u8; 31], vec![1u8; 33]);
    let word = Word { draft: &draft, prefix: &prefix, period: &period };
    let ask = |repeats| unsafe {
        colvaje_testing_accept(2, file.as_ptr(), file.len(), 31, prefix.as_ptr(), prefix.len(), period.as_ptr(), period.len(), repeats)
    };
    question("accept, 10240 vertices", &word, 31, 5, ask, 10240);
}

fn contain_at_the_limits() {
    let (first, second) = (Draft::full(16, 0, 128), Draft::full(16, 1, 128));
    let (a, b) = (first.records(), second.records());
    let pair = Pair { a: &first, b: &second };
    let ask = |repeats| unsafe { colvaje_testing_contain(16, a.as_ptr(), a.len(), b.as_ptr(), b.len(), 31, 31, repeats) };
    question("contain, 17408 vertices", &pair, 31 * 32 + 31, 3, ask, 17408);
}

fn main() {
    println!("{:<28} {:>6} {:>9} {:>9} {:>7}", "arena", "rounds", "proved", "plain", "ratio");
    println!("{:<28} {:>6} {:>9} {:>9} {:>7}", "", "", "ns", "ns", "");
    compare("chain of 4096", &chain(4096), 10);
    compare("chain of 256", &chain(256), 1000);
    compare("random 4096, 4 priorities", &random(4096, 4, 1), 300);
    compare("random 4096, 100 priorities", &random(4096, 100, 2), 30);
    compare("random 256, 100 priorities", &random(256, 100, 3), 1000);
    accept_at_the_limits();
    contain_at_the_limits();
}
