// Drafts, runs and pairs by the definitions in docs/DRAFTS.md and docs/CONTAINMENT.md.
use crate::games::Game;
use std::collections::BTreeSet;

#[derive(Clone, Copy, Debug, PartialEq)]
pub enum Node {
    Leaf(usize),
    Either(usize, usize),
    Both(usize, usize),
}

#[derive(Clone, Debug)]
pub struct Draft {
    pub letters: usize,
    pub priority: Vec<u32>,
    pub rules: Vec<Vec<Option<usize>>>,
    pub nodes: Vec<Node>,
}

// Why a file is no draft: the number of the first question answered no, the layer that asked it, and the record's place.
#[derive(Clone, Copy, Debug, PartialEq)]
pub struct Fault {
    pub number: u32,
    pub layer: u32,
    pub place: usize,
}

// A new draft after the file was loaded into it, and the fault if there was one.
pub fn load_into_new(letters: u32, bytes: &[u8]) -> (Draft, Option<Fault>) {
    let empty = |letters: usize| Draft { letters, priority: Vec::new(), rules: Vec::new(), nodes: Vec::new() };
    let of_file = |number: u32| Some(Fault { number, layer: 1, place: 0 });
    if !(1..=16).contains(&letters) {
        return (empty(1), of_file(1));
    }
    if bytes.len() % 8 != 0 {
        return (empty(1), of_file(9));
    }
    let mut d = empty(letters as usize);
    for (place, r) in bytes.chunks(8).enumerate() {
        if let Err(number) = d.take(r) {
            let layer = if number == 10 || number == 11 { 2 } else { 3 };
            return (d, Some(Fault { number, layer, place }));
        }
    }
    (d, None)
}

// The draft in a file, or the number of the first question answered no.
pub fn load(letters: u32, bytes: &[u8]) -> Result<Draft, u32> {
    match load_into_new(letters, bytes) {
        (d, None) => Ok(d),
        (_, Some(fault)) => Err(fault.number),
    }
}

impl Draft {
    fn take(&mut self, r: &[u8]) -> Result<(), u32> {
        let a = usize::from(r[2]) + 256 * usize::from(r[3]);
        let b = usize::from(r[4]) + 256 * usize::from(r[5]);
        // which of letter, first and second number the call uses
        let (letter, first, second) = match r[0] {
            1 | 2 => (false, true, false),
            3 | 4 | 6 => (false, true, true),
            5 => (true, true, true),
            7 => (false, false, false),
            _ => return Err(10),
        };
        if (!letter && r[1] != 0) || (!first && a != 0) || (!second && b != 0) || r[6] != 0 || r[7] != 0 {
            return Err(11);
        }
        match r[0] {
            1 => self.state(a),
            2 if a >= self.priority.len() => Err(4),
            2 => self.node(Node::Leaf(a)),
            3 | 4 if a >= self.nodes.len() || b >= self.nodes.len() => Err(6),
            3 => self.node(Node::Either(a, b)),
            4 => self.node(Node::Both(a, b)),
            5 => self.rule(a, usize::from(r[1]), b),
            6 if a >= self.priority.len() => Err(4),
            6 if b > 999 => Err(2),
            6 => {
                self.priority[a] = b as u32;
                Ok(())
            }
            _ => self.turn(),
        }
    }

    fn state(&mut self, priority: usize) -> Result<(), u32> {
        if priority > 999 {
            return Err(2);
        }
        if self.priority.len() >= 32 {
            return Err(3);
        }
        self.priority.push(priority as u32);
        self.rules.push(vec![None; 16]);
        Ok(())
    }

    fn node(&mut self, node: Node) -> Result<(), u32> {
        if self.nodes.len() >= 128 {
            return Err(5);
        }
        self.nodes.push(node);
        Ok(())
    }

    fn rule(&mut self, q: usize, letter: usize, x: usize) -> Result<(), u32> {
        if q >= self.priority.len() {
            return Err(4);
        }
        if letter >= self.letters {
            return Err(7);
        }
        if x >= self.nodes.len() {
            return Err(6);
        }
        self.rules[q][letter] = Some(x);
        Ok(())
    }

    fn turn(&mut self) -> Result<(), u32> {
        if self.priority.iter().any(|&p| p >= 999) {
            return Err(8);
        }
        for p in &mut self.priority {
            *p += 1;
        }
        for n in &mut self.nodes {
            *n = match *n {
                Node::Leaf(q) => Node::Leaf(q),
                Node::Either(l, r) => Node::Both(l, r),
                Node::Both(l, r) => Node::Either(l, r),
            };
        }
        Ok(())
    }

    pub fn complete(&self) -> bool {
        self.rules.iter().all(|r| r[..self.letters].iter().all(Option::is_some))
    }

    // The states named at or below a node.
    fn below(&self, x: usize) -> BTreeSet<usize> {
        match self.nodes[x] {
            Node::Leaf(q) => BTreeSet::from([q]),
            Node::Either(l, r) | Node::Both(l, r) => &self.below(l) | &self.below(r),
        }
    }

    pub fn stratified(&self) -> bool {
        (0..self.priority.len()).all(|q| {
            self.rules[q].iter().flatten().all(|&x| self.below(x).iter().all(|&p| self.priority[p] <= self.priority[q]))
        })
    }

    // Whether a set of states, given by its bits, satisfies the formula of a node.
    fn satisfied(&self, x: usize, set: u32) -> bool {
        match self.nodes[x] {
            Node::Leaf(q) => set >> q & 1 == 1,
            Node::Either(l, r) => self.satisfied(l, set) || self.satisfied(r, set),
            Node::Both(l, r) => self.satisfied(l, set) && self.satisfied(r, set),
        }
    }

    // The minimal models of a node, for few states.
    fn minimal_models(&self, x: usize) -> Vec<u32> {
        let all: Vec<u32> = (0..1u32 << self.priority.len()).filter(|&m| self.satisfied(x, m)).collect();
        all.iter().copied().filter(|&m| !all.iter().any(|&k| k != m && k & m == k)).collect()
    }

    // Whether there is an accepting run on the word from a state: a minimal model is chosen at each state and step, and no path
    // of the graph may have an odd smallest priority. The steps are those of the prefix and of one period.
    pub fn accepts(&self, q: usize, prefix: &[u8], period: &[u8]) -> Option<bool> {
        let steps = prefix.len() + period.len();
        let letter = |i: usize| usize::from(if i < prefix.len() { prefix[i] } else { period[i - prefix.len()] });
        let s = self.priority.len();
        let models: Vec<Vec<u32>> =
            (0..steps * s).map(|v| self.minimal_models(self.rules[v % s][letter(v / s)].expect("complete"))).collect();
        if models.iter().map(|m| m.len() as f64).product::<f64>() > 20_000.0 {
            return None;
        }
        let next = |i: usize| if i + 1 == steps { prefix.len() } else { i + 1 };
        let mut choice = vec![0; steps * s];
        loop {
            let edges: Vec<Vec<usize>> = (0..steps * s)
                .map(|v| (0..s).filter(|p| models[v][choice[v]] >> p & 1 == 1).map(|p| next(v / s) * s + p).collect())
                .collect();
            if self.all_paths_even(q, &edges) {
                return Some(true);
            }
            // the next choice of models
            let Some(v) = (0..steps * s).find(|&v| choice[v] + 1 < models[v].len()) else {
                return Some(false);
            };
            choice[v] += 1;
            choice[..v].fill(0);
        }
    }

    // No path from the start has an odd smallest priority p: such a path stays at priorities of at least p, meets p, and goes on
    // for ever. Each vertex has an edge, but perhaps none to priorities of at least p.
    fn all_paths_even(&self, start: usize, edges: &[Vec<usize>]) -> bool {
        let s = self.priority.len();
        let priority = |v: usize| self.priority[v % s];
        let odd: BTreeSet<u32> = self.priority.iter().copied().filter(|p| p % 2 == 1).collect();
        odd.iter().all(|&p| {
            let lasting = lasting(edges, &|v| priority(v) >= p);
            // states of the search: a vertex, and whether p was met
            let mut seen = vec![[false; 2]; edges.len()];
            let mut stack = vec![(start, priority(start) == p)];
            while let Some((v, met)) = stack.pop() {
                if priority(v) < p || !lasting[v] || std::mem::replace(&mut seen[v][usize::from(met)], true) {
                    continue;
                }
                if met {
                    return false;
                }
                stack.extend(edges[v].iter().map(|&u| (u, priority(u) == p)));
            }
            true
        })
    }

    // The records of the draft.
    pub fn records(&self) -> Vec<u8> {
        let mut out = Vec::new();
        let mut put = |kind: u8, letter: usize, a: usize, b: usize| {
            out.extend([kind, letter as u8, a as u8, (a >> 8) as u8, b as u8, (b >> 8) as u8, 0, 0]);
        };
        self.priority.iter().for_each(|&p| put(1, 0, p as usize, 0));
        self.nodes.iter().for_each(|n| match *n {
            Node::Leaf(q) => put(2, 0, q, 0),
            Node::Either(l, r) => put(3, 0, l, r),
            Node::Both(l, r) => put(4, 0, l, r),
        });
        for (q, rules) in self.rules.iter().enumerate() {
            for (letter, x) in rules.iter().enumerate().filter_map(|(c, x)| x.map(|x| (c, x))) {
                put(5, letter, q, x);
            }
        }
        out
    }
}

// The vertices from which a path can go on for ever among those that pass a test.
fn lasting(edges: &[Vec<usize>], test: &dyn Fn(usize) -> bool) -> Vec<bool> {
    let mut lasting: Vec<bool> = (0..edges.len()).map(test).collect();
    loop {
        let next: Vec<bool> = (0..edges.len()).map(|v| lasting[v] && edges[v].iter().any(|&u| lasting[u])).collect();
        if next == lasting {
            return lasting;
        }
        lasting = next;
    }
}

// The game of pairs.
pub fn pairs(a: &Draft, b: &Draft) -> Game {
    let (s, m) = (b.priority.len(), b.nodes.len());
    let stated = a.priority.len() * s;
    let mut game = Game { owner: Vec::new(), priority: Vec::new(), moves: Vec::new() };
    for p in 0..a.priority.len() {
        for q in 0..s {
            let (x, y) = (a.priority[p], b.priority[q]);
            game.owner.push(1);
            game.priority.push(2 * (x + y) + u32::from(x % 2 == 0 && y % 2 == 1));
            game.moves.push(
                (0..a.letters).map(|c| stated + a.rules[p][c].expect("complete") * m + b.rules[q][c].expect("complete")).collect(),
            );
        }
    }
    for (x, &n) in a.nodes.iter().enumerate() {
        for (y, &o) in b.nodes.iter().enumerate() {
            let one = matches!(n, Node::Either(..)) || matches!(o, Node::Both(..));
            let mut moves = Vec::new();
            match n {
                Node::Either(l, r) if one => moves.extend([stated + l * m + y, stated + r * m + y]),
                Node::Both(l, r) if !one => moves.extend([stated + l * m + y, stated + r * m + y]),
                _ => {}
            }
            match o {
                Node::Both(l, r) if one => moves.extend([stated + x * m + l, stated + x * m + r]),
                Node::Either(l, r) if !one => moves.extend([stated + x * m + l, stated + x * m + r]),
                _ => {}
            }
            if let (Node::Leaf(p), Node::Leaf(q)) = (n, o) {
                moves.push(p * s + q);
            }
            game.owner.push(u8::from(one));
            game.priority.push(9999);
            game.moves.push(moves);
        }
    }
    game
}
