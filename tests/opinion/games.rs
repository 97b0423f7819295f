// Games by the definitions in docs/GAMES.md: sets of vertices, no rounds in place.
pub struct Game {
    pub owner: Vec<u8>,
    pub priority: Vec<u32>,
    pub moves: Vec<Vec<usize>>,
}

#[derive(Clone, Copy, PartialEq, Debug)]
pub struct Found {
    pub winner: u8,
    pub grade: u32,
    pub distance: u32,
    pub choice: u8,
}

// The player whom a priority favours; the even side is 0.
fn favoured(p: u32) -> u8 {
    (p % 2) as u8
}

impl Game {
    fn count(&self) -> usize {
        self.owner.len()
    }

    // Grades and distances: R(p) shrinks as p rises, and within it sets of rising distance grow.
    fn graded(&self) -> Vec<(u32, u32)> {
        let n = self.count();
        let mut out = vec![None; n];
        let mut priorities: Vec<u32> = self.priority.clone();
        priorities.sort_unstable();
        priorities.dedup();
        for p in priorities {
            let rest: Vec<bool> = out.iter().map(Option::is_none).collect();
            let mut reached: Vec<bool> = (0..n).map(|v| rest[v] && self.priority[v] == p).collect();
            let mut d = 0;
            let mut new = reached.clone();
            while new.contains(&true) {
                for v in 0..n {
                    if new[v] {
                        out[v] = Some((p, d));
                    }
                }
                new = (0..n).map(|v| rest[v] && !reached[v] && self.attracted(v, p, &rest, &reached)).collect();
                for v in 0..n {
                    reached[v] |= new[v];
                }
                d += 1;
            }
        }
        out.into_iter().map(|o| o.expect("each vertex gets a grade at its own priority at the latest")).collect()
    }

    fn attracted(&self, v: usize, p: u32, rest: &[bool], reached: &[bool]) -> bool {
        if self.owner[v] == favoured(p) {
            self.moves[v].iter().any(|&u| reached[u])
        } else {
            self.moves[v].iter().all(|&u| !rest[u] || reached[u])
        }
    }

    pub fn solve(&self) -> Vec<Found> {
        let table = self.graded();
        (0..self.count())
            .map(|v| {
                let (grade, distance) = table[v];
                let nearer = |&u: &usize| table[u].0 == grade && table[u].1 < distance;
                let up = |&u: &usize| table[u].0 >= grade;
                let found = if self.owner[v] == favoured(grade) && distance > 0 {
                    self.moves[v].iter().position(nearer)
                } else {
                    self.moves[v].iter().position(up)
                };
                Found { winner: favoured(grade), grade, distance, choice: found.expect("there is such a move") as u8 }
            })
            .collect()
    }

    // The winner at v by trying all positional plans of both players: a play by two such plans runs into a cycle, and its
    // smallest priority decides. For tiny games only.
    pub fn winner_by_plans(&self, v: usize) -> u8 {
        let plans = |x: u8| -> Vec<Vec<usize>> {
            let mut all: Vec<Vec<usize>> = vec![vec![0; self.count()]];
            for u in (0..self.count()).filter(|&u| self.owner[u] == x) {
                all = all
                    .iter()
                    .flat_map(|p| {
                        (0..self.moves[u].len()).map(move |i| {
                            let mut q = p.clone();
                            q[u] = i;
                            q
                        })
                    })
                    .collect();
            }
            all
        };
        let (hers, his) = (plans(0), plans(1));
        let won = hers.iter().any(|a| his.iter().all(|b| self.play(v, a, b) == 0));
        u8::from(!won)
    }

    fn play(&self, start: usize, hers: &[usize], his: &[usize]) -> u8 {
        let mut v = start;
        let mut least = u32::MAX;
        // after as many moves as there are vertices a cycle is closed; once more round meets all of it
        for _ in 0..2 * self.count() {
            least = least.min(self.priority[v]);
            let i = if self.owner[v] == 0 { hers[v] } else { his[v] };
            v = self.moves[v][i];
        }
        favoured(least)
    }
}

// A stored arena's fault: the refusal's number and, for a record, its place.
pub fn stored(bytes: &[u8]) -> Result<Game, (u32, Option<usize>)> {
    if bytes.len() % 8 != 0 {
        return Err((9, None));
    }
    let n = bytes.len() / 8;
    if !(1..=4096).contains(&n) {
        return Err((17, None));
    }
    let mut game = Game { owner: Vec::new(), priority: Vec::new(), moves: Vec::new() };
    for (v, r) in bytes.chunks(8).enumerate() {
        let pair = |i: usize| usize::from(r[i]) + 256 * usize::from(r[i + 1]);
        if r[0] > 1 || r[1] != 0 {
            return Err((18, Some(v)));
        }
        if pair(2) > 9999 {
            return Err((19, Some(v)));
        }
        if pair(4) >= n || pair(6) >= n {
            return Err((20, Some(v)));
        }
        game.owner.push(r[0]);
        game.priority.push(pair(2) as u32);
        game.moves.push(vec![pair(4), pair(6)]);
    }
    Ok(game)
}
