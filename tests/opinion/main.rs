// A second opinion: random questions put to the library and to this program, which shares no code with it. It was written from
// docs/ alone; acceptance is decided by minimal models and least priorities along paths, not by games.
mod drafts;
mod games;

use drafts::{Draft, Node, load, load_into_new, pairs};
use games::stored;

unsafe extern "C" {
    fn colvaje_testing_solve(bytes: *const u8, len: usize, repeats: u32, out: *mut u8, out_len: usize) -> u32;
    fn colvaje_testing_accept(
        letters: u32, bytes: *const u8, len: usize, state: u32, prefix: *const u8, prefix_len: usize, period: *const u8,
        period_len: usize, repeats: u32,
    ) -> u32;
    fn colvaje_testing_contain(
        letters: u32, first: *const u8, first_len: usize, second: *const u8, second_len: usize, first_state: u32,
        second_state: u32, repeats: u32,
    ) -> u32;
    fn colvaje_testing_load(letters: u32, bytes: *const u8, len: usize, out: *mut u8, out_len: usize) -> u64;
    fn colvaje_contain(
        letters: u32, first: *const u8, first_len: usize, second: *const u8, second_len: usize, first_state: u32, second_state: u32,
    ) -> u32;
}

struct Random(u64);

impl Random {
    fn below(&mut self, n: usize) -> usize {
        self.0 ^= self.0 << 13;
        self.0 ^= self.0 >> 7;
        self.0 ^= self.0 << 17;
        (self.0 >> 11) as usize % n
    }
    fn once_in(&mut self, n: usize) -> bool {
        self.below(n) == 0
    }
    // Spoils a file now and then: a byte changed, or the length.
    fn damaged(&mut self, mut bytes: Vec<u8>) -> Vec<u8> {
        if self.once_in(3) && !bytes.is_empty() {
            let i = self.below(bytes.len());
            let most = if self.once_in(2) { 12 } else { 256 };
            bytes[i] = self.below(most) as u8;
        }
        if self.once_in(20) {
            let length = self.below(bytes.len() + 1);
            bytes.truncate(length);
        }
        bytes
    }
    fn arena(&mut self, most: usize) -> Vec<u8> {
        let n = 1 + self.below(most);
        let priorities = 1 + self.below(8);
        (0..n)
            .flat_map(|_| {
                let (p, l, r) = (self.below(priorities), self.below(n), self.below(n));
                [self.below(2) as u8, 0, p as u8, 0, l as u8, (l >> 8) as u8, r as u8, (r >> 8) as u8]
            })
            .collect()
    }
    // A draft with few states; stratified more often than chance would have it, and mostly complete.
    fn draft(&mut self, letters: usize) -> Draft {
        let s = 1 + self.below(3);
        let mut priority: Vec<u32> = (0..s).map(|_| self.below(4) as u32).collect();
        if self.once_in(2) {
            priority.sort_unstable();
        }
        let mut nodes: Vec<Node> = (0..s).map(Node::Leaf).collect();
        for _ in 0..self.below(4) {
            let (l, r) = (self.below(nodes.len()), self.below(nodes.len()));
            nodes.push(if self.once_in(2) { Node::Either(l, r) } else { Node::Both(l, r) });
        }
        let falling = self.once_in(2);
        let rules = (0..s)
            .map(|q| {
                let mut row = vec![None; 16];
                for rule in row.iter_mut().take(letters) {
                    if !self.once_in(40) {
                        *rule = Some(if falling { self.below(q + 1) } else { self.below(nodes.len()) });
                    }
                }
                row
            })
            .collect();
        Draft { letters, priority, rules, nodes }
    }
    fn word(&mut self, letters: usize, most: usize) -> Vec<u8> {
        (0..self.below(most + 1))
            .map(|_| {
                let one_more = usize::from(self.once_in(30));
                self.below(letters + one_more) as u8
            })
            .collect()
    }
}

#[derive(Default)]
struct Tally {
    asked: usize,
    differences: usize,
}

impl Tally {
    fn compare<T: PartialEq + std::fmt::Debug>(&mut self, what: &str, theirs: T, ours: T, question: impl std::fmt::Debug) {
        self.asked += 1;
        if theirs != ours {
            self.differences += 1;
            if self.differences <= 10 {
                println!("DIFFERENCE: {what}: library {theirs:?}, second opinion {ours:?}, asked {question:?}");
            }
        }
    }
}

fn ask_solve(random: &mut Random, tally: &mut Tally) {
    let most = if random.once_in(50) { 600 } else { 5 };
    let bytes = random.arena(most);
    let bytes = random.damaged(bytes);
    let mut out = vec![0u8; 6 * (bytes.len() / 8)];
    let code = unsafe { colvaje_testing_solve(bytes.as_ptr(), bytes.len(), 1, out.as_mut_ptr(), out.len()) };
    match stored(&bytes) {
        Err((number, place)) => tally.compare("stored", code, number + place.map_or(0, |v| 256 * (v as u32 + 1)), &bytes),
        Ok(game) => {
            let ours: Vec<u8> = game
                .solve()
                .iter()
                .flat_map(|f| [f.winner, f.choice, f.grade as u8, (f.grade >> 8) as u8, f.distance as u8, (f.distance >> 8) as u8])
                .collect();
            tally.compare("solve", (code, &out), (0, &ours), &bytes);
            if bytes.len() <= 40 {
                for (v, found) in out.chunks(6).enumerate() {
                    tally.compare("winner by plans", found[0], game.winner_by_plans(v), (v, &bytes));
                }
            }
        }
    }
}

// What accept says: the questions in their order, then whether there is an accepting run.
fn opinion_on_word(d: &Draft, q: usize, prefix: &[u8], period: &[u8]) -> Option<u32> {
    if !d.complete() {
        return Some(112);
    }
    if q >= d.priority.len() {
        return Some(104);
    }
    if period.is_empty() || prefix.len() + period.len() > 64 {
        return Some(113);
    }
    if prefix.iter().chain(period).any(|&c| usize::from(c) >= d.letters) {
        return Some(107);
    }
    d.accepts(q, prefix, period).map(u32::from)
}

fn ask_accept(random: &mut Random, tally: &mut Tally) {
    let letters = 1 + random.below(3);
    let draft = random.draft(letters);
    let bytes = random.draft_file(&draft);
    let long = if random.once_in(100) { 70 } else { 3 };
    let (prefix, period) = (random.word(letters, long), random.word(letters, long));
    let one_more = usize::from(random.once_in(20));
    let q = random.below(draft.priority.len() + one_more);
    let theirs = unsafe {
        colvaje_testing_accept(
            letters as u32, bytes.as_ptr(), bytes.len(), q as u32, prefix.as_ptr(), prefix.len(), period.as_ptr(), period.len(), 1,
        )
    };
    let ours = match load(letters as u32, &bytes) {
        Ok(d) => opinion_on_word(&d, q, &prefix, &period),
        Err(_) => Some(99),
    };
    if let Some(ours) = ours {
        tally.compare("accept", theirs, ours, (&draft, &bytes, q, &prefix, &period));
    }
}

impl Random {
    // The draft's records; now and then turned once or twice by a record of its own, now and then damaged.
    fn draft_file(&mut self, draft: &Draft) -> Vec<u8> {
        let mut bytes = draft.records();
        for _ in 0..self.below(3) {
            bytes.extend([7, 0, 0, 0, 0, 0, 0, 0]);
        }
        if self.once_in(5) { self.damaged(bytes) } else { bytes }
    }
}

// A file, mostly damaged: the fault with its layer and place, and the draft that it leaves.
fn ask_load(random: &mut Random, tally: &mut Tally) {
    let one_more = 16 * usize::from(random.once_in(20));
    let letters = random.below(4) + one_more;
    let draft = random.draft(letters.clamp(1, 16));
    let bytes = random.draft_file(&draft);
    let bytes = random.damaged(bytes);
    let mut left = [0u8; 5376];
    let code = unsafe { colvaje_testing_load(letters as u32, bytes.as_ptr(), bytes.len(), left.as_mut_ptr(), left.len()) };
    let (ours, fault) = load_into_new(letters as u32, &bytes);
    let ours = ours.records();
    tally.compare("load", code, fault.map_or(0, |f| u64::from(f.number) + 256 * u64::from(f.layer) + 65536 * f.place as u64), &bytes);
    tally.compare("what a load leaves", &left[..ours.len()], &ours[..], (letters, &bytes));
    tally.compare("and no more", left[ours.len()..].iter().any(|&b| b != 0), false, (letters, &bytes));
}

// What contain says: the draft that is spoken of, and the number, or the verdict.
fn opinion_on_pair(a: &Draft, p: usize, b: &Draft, q: usize) -> Result<bool, (u32, u32)> {
    let questions = [
        (a.complete(), 1, 12),
        (b.complete(), 2, 12),
        (a.letters == b.letters, 0, 15),
        (p < a.priority.len(), 1, 4),
        (q < b.priority.len(), 2, 4),
        (a.stratified(), 1, 16),
        (b.stratified(), 2, 16),
    ];
    match questions.iter().find(|(yes, ..)| !yes) {
        Some(&(_, draft, number)) => Err((draft, number)),
        None => Ok(pairs(a, b).solve()[p * b.priority.len() + q].winner == 0),
    }
}

fn ask_contain(random: &mut Random, tally: &mut Tally) {
    let letters = 1 + random.below(3);
    let (first, second) = (random.draft(letters), random.draft(letters));
    let (a, b) = (random.draft_file(&first), random.draft_file(&second));
    let one_more = usize::from(random.once_in(20));
    let p = random.below(first.priority.len() + one_more);
    let one_more = usize::from(random.once_in(20));
    let q = random.below(second.priority.len() + one_more);
    let (n, x, y) = (letters as u32, p as u32, q as u32);
    let host = unsafe { colvaje_contain(n, a.as_ptr(), a.len(), b.as_ptr(), b.len(), x, y) };
    let direct = unsafe { colvaje_testing_contain(n, a.as_ptr(), a.len(), b.as_ptr(), b.len(), x, y, 1) };
    let question = (&a, &b, p, q);
    let (d, e) = match (load(n, &a), load(n, &b)) {
        (Err(number), _) => return tally.compare("host, first file", host, 1100 + number, question),
        (_, Err(number)) => return tally.compare("host, second file", host, 2100 + number, question),
        (Ok(d), Ok(e)) => (d, e),
    };
    let ours = opinion_on_pair(&d, p, &e, q);
    let number = match ours {
        Ok(yes) => u32::from(yes),
        Err((draft, number)) => 1000 * draft + 100 + number,
    };
    tally.compare("host", host, number, question);
    tally.compare("contain", direct, if number >= 100 { number % 1000 } else { number }, question);
    if ours == Ok(true) {
        // a yes is safe: what the first accepts the second accepts
        for _ in 0..4 {
            let (prefix, mut period) = (random.word(letters, 2), random.word(letters, 2));
            period.push(0);
            let known = |c: &u8| usize::from(*c) < letters;
            if prefix.iter().chain(&period).all(known) && d.accepts(p, &prefix, &period) == Some(true) {
                if let Some(yes) = e.accepts(q, &prefix, &period) {
                    tally.compare("a yes is safe", yes, true, (question, &prefix, &period));
                }
            }
        }
    }
}

fn main() {
    let mut words = std::env::args().skip(1);
    let turns: usize = words.next().map_or(100_000, |w| w.parse().expect("a number of questions"));
    let seed: u64 = words.next().map_or(88_172_645_463_325_252, |w| w.parse().expect("a seed"));
    let mut random = Random(seed);
    let mut tally = Tally::default();
    while tally.asked < turns {
        ask_solve(&mut random, &mut tally);
        ask_load(&mut random, &mut tally);
        ask_accept(&mut random, &mut tally);
        ask_contain(&mut random, &mut tally);
    }
    println!("second opinion: {} questions, {} differences", tally.asked, tally.differences);
    std::process::exit(i32::from(tally.differences > 0));
}
