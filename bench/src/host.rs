// Times the call from C at its limit of 4,096 records against the same in plain Rust: both files loaded, the pairs solved.
#[allow(dead_code)]
mod drafts;
#[allow(dead_code)]
mod solve;

use drafts::{Draft, Pair};
use solve::{Outcome, solve};
use std::hint::black_box;
use std::time::Instant;

unsafe extern "C" {
    fn colvaje_contain(
        letters: u32, first: *const u8, first_len: usize, second: *const u8, second_len: usize, first_state: u32, second_state: u32,
    ) -> u32;
}

fn main() {
    // 32 * 32 pairs of states and 55 * 55 of nodes
    let (a, b) = (Draft::full(16, 0, 55).records(), Draft::full(16, 1, 55).records());
    let (mut proved, mut plain, mut answer, mut expected) = (f64::MAX, f64::MAX, 0, 0);
    for _ in 0..20 {
        let start = Instant::now();
        answer = unsafe { colvaje_contain(16, a.as_ptr(), a.len(), b.as_ptr(), b.len(), 31, 31) };
        proved = proved.min(start.elapsed().as_secs_f64());
        let start = Instant::now();
        let (first, second) = (Draft::load(16, black_box(&a)), Draft::load(16, black_box(&b)));
        let mut records = [Outcome { winner: 0, grade: 0, distance: 0, choice: 0 }; 4096];
        solve(&Pair { a: &first, b: &second }, &mut records);
        expected = u32::from(records[31 * 32 + 31].winner == 0);
        plain = plain.min(start.elapsed().as_secs_f64());
    }
    assert_eq!(answer, expected, "the answers differ");
    println!("host call, 4049 vertices      {:>8.3} ms {:>8.3} ms {:>7.2}", proved * 1e3, plain * 1e3, proved / plain);
}
