// Word and pair arenas in plain Rust, by the same vertex numbers.
use crate::solve::Arena;

#[derive(Clone, Copy)]
pub enum Node {
    Leaf(u8),
    Either(u8, u8),
    Both(u8, u8),
}

pub struct Draft {
    pub letters: u8,
    pub states: Vec<(u16, [Option<u8>; 16])>,
    pub nodes: Vec<Node>,
}

impl Draft {
    // The draft in the records of a file that needs no check.
    pub fn load(letters: u8, bytes: &[u8]) -> Draft {
        let mut draft = Draft { letters, states: Vec::new(), nodes: Vec::new() };
        for r in bytes.chunks_exact(8) {
            let (a, b) = (u16::from_le_bytes([r[2], r[3]]), u16::from_le_bytes([r[4], r[5]]));
            match r[0] {
                1 => draft.states.push((a, [None; 16])),
                2 => draft.nodes.push(Node::Leaf(a as u8)),
                3 => draft.nodes.push(Node::Either(a as u8, b as u8)),
                4 => draft.nodes.push(Node::Both(a as u8, b as u8)),
                _ => draft.states[a as usize].1[r[1] as usize] = Some(b as u8),
            }
        }
        draft
    }

    // 32 states and so many nodes, all letters ruled. Priorities fall along the rules, so it is stratified.
    pub fn full(letters: u8, shift: u16, nodes: u8) -> Draft {
        let mut all: Vec<Node> = (0..32).map(Node::Leaf).collect();
        // node 32 + i joins the leaves i and i + 1, and later nodes join what stands 32 and 31 before them
        for i in 32..nodes {
            let (l, r) = (i - 32, i - 31);
            all.push(if i % 2 == 0 { Node::Either(l, r) } else { Node::Both(l, r) });
        }
        // state q leads to itself, or to a node above states at q or below it
        let states = (0..32u16)
            .map(|q| {
                let mut rules = [None; 16];
                for (letter, rule) in rules.iter_mut().enumerate().take(letters as usize) {
                    let joined = 31 + q as u8;
                    *rule = Some(if letter % 2 == 0 || q == 0 || joined >= nodes { q as u8 } else { joined });
                }
                (q + shift, rules)
            })
            .collect();
        Draft { letters, states, nodes: all }
    }

    // The draft as the records of a file.
    pub fn records(&self) -> Vec<u8> {
        let mut out = Vec::new();
        let mut put = |kind: u8, letter: u8, a: u16, b: u16| {
            let (a, b) = (a.to_le_bytes(), b.to_le_bytes());
            out.extend([kind, letter, a[0], a[1], b[0], b[1], 0, 0]);
        };
        for (priority, _) in &self.states {
            put(1, 0, *priority, 0);
        }
        for node in &self.nodes {
            match *node {
                Node::Leaf(q) => put(2, 0, q.into(), 0),
                Node::Either(l, r) => put(3, 0, l.into(), r.into()),
                Node::Both(l, r) => put(4, 0, l.into(), r.into()),
            }
        }
        for (q, (_, rules)) in self.states.iter().enumerate() {
            for (letter, rule) in rules.iter().enumerate() {
                if let Some(x) = rule {
                    put(5, letter as u8, q as u16, (*x).into());
                }
            }
        }
        out
    }
}

pub struct Word<'a> {
    pub draft: &'a Draft,
    pub prefix: &'a [u8],
    pub period: &'a [u8],
}

enum At {
    State(usize, usize),
    Node(usize, usize),
}

impl Word<'_> {
    fn steps(&self) -> usize {
        self.prefix.len() + self.period.len()
    }
    fn at(&self, v: usize) -> At {
        let (s, m) = (self.draft.states.len(), self.draft.nodes.len());
        let stated = self.steps() * s;
        if v < stated { At::State(v / s, v % s) } else { At::Node((v - stated) / m, (v - stated) % m) }
    }
    fn state(&self, k: usize, q: u8) -> usize {
        k * self.draft.states.len() + q as usize
    }
    fn node(&self, k: usize, x: u8) -> usize {
        self.steps() * self.draft.states.len() + k * self.draft.nodes.len() + x as usize
    }
    fn letter(&self, k: usize) -> u8 {
        if k < self.prefix.len() { self.prefix[k] } else { self.period[(k - self.prefix.len()) % self.period.len()] }
    }
    fn next(&self, k: usize) -> usize {
        if k + 1 == self.steps() { self.prefix.len() } else { k + 1 }
    }
}

impl Arena for Word<'_> {
    fn count(&self) -> usize {
        self.steps() * (self.draft.states.len() + self.draft.nodes.len())
    }
    fn even_side(&self) -> u8 {
        0
    }
    fn owner(&self, v: usize) -> u8 {
        match self.at(v) {
            At::Node(_, x) if matches!(self.draft.nodes[x], Node::Both(..)) => 1,
            _ => 0,
        }
    }
    fn priority(&self, v: usize) -> u16 {
        match self.at(v) {
            At::State(_, q) => self.draft.states[q].0,
            At::Node(..) => 9999,
        }
    }
    fn degree(&self, v: usize) -> usize {
        match self.at(v) {
            At::Node(_, x) if !matches!(self.draft.nodes[x], Node::Leaf(_)) => 2,
            _ => 1,
        }
    }
    fn successor(&self, v: usize, i: usize) -> usize {
        match self.at(v) {
            At::State(k, q) => self.node(k, self.draft.states[q].1[self.letter(k) as usize].unwrap_or(0)),
            At::Node(k, x) => match self.draft.nodes[x] {
                Node::Leaf(q) => self.state(self.next(k), q),
                Node::Either(l, r) | Node::Both(l, r) => self.node(k, if i == 0 { l } else { r }),
            },
        }
    }
}

pub struct Pair<'a> {
    pub a: &'a Draft,
    pub b: &'a Draft,
}

fn part(n: Node, i: usize) -> usize {
    match n {
        Node::Leaf(q) => q as usize,
        Node::Either(l, r) | Node::Both(l, r) => (if i == 0 { l } else { r }) as usize,
    }
}

impl Pair<'_> {
    fn stated(&self) -> usize {
        self.a.states.len() * self.b.states.len()
    }
    fn states(&self, p: usize, q: usize) -> usize {
        p * self.b.states.len() + q
    }
    fn nodes(&self, x: usize, y: usize) -> usize {
        self.stated() + x * self.b.nodes.len() + y
    }
    // The two nodes of a vertex past the pairs of states.
    fn split(&self, v: usize) -> (usize, usize) {
        let w = v - self.stated();
        (w / self.b.nodes.len(), w % self.b.nodes.len())
    }
    fn moves(&self, n: Node, o: Node) -> (bool, bool, bool) {
        let (ne, nb) = (matches!(n, Node::Either(..)), matches!(n, Node::Both(..)));
        let (oe, ob) = (matches!(o, Node::Either(..)), matches!(o, Node::Both(..)));
        let one = ne || ob;
        if one { (one, ne, ob) } else { (one, nb, oe) }
    }
}

impl Arena for Pair<'_> {
    fn count(&self) -> usize {
        self.stated() + self.a.nodes.len() * self.b.nodes.len()
    }
    fn even_side(&self) -> u8 {
        0
    }
    fn owner(&self, v: usize) -> u8 {
        if v < self.stated() {
            return 1;
        }
        let (x, y) = self.split(v);
        u8::from(self.moves(self.a.nodes[x], self.b.nodes[y]).0)
    }
    fn priority(&self, v: usize) -> u16 {
        if v >= self.stated() {
            return 9999;
        }
        let s = self.b.states.len();
        let (p, q) = (self.a.states[v / s].0, self.b.states[v % s].0);
        2 * (p + q) + u16::from(!(p % 2 == 1 || q % 2 == 0))
    }
    fn degree(&self, v: usize) -> usize {
        if v < self.stated() {
            return self.a.letters as usize;
        }
        let (x, y) = self.split(v);
        let (_, f, g) = self.moves(self.a.nodes[x], self.b.nodes[y]);
        (2 * (usize::from(f) + usize::from(g))).max(1)
    }
    fn successor(&self, v: usize, i: usize) -> usize {
        if v < self.stated() {
            let s = self.b.states.len();
            let x = self.a.states[v / s].1[i].unwrap_or(0);
            let y = self.b.states[v % s].1[i].unwrap_or(0);
            return self.nodes(x as usize, y as usize);
        }
        let (x, y) = self.split(v);
        let (n, o) = (self.a.nodes[x], self.b.nodes[y]);
        let (_, f, g) = self.moves(n, o);
        if f && i < 2 {
            self.nodes(part(n, i % 2), y)
        } else if g {
            self.nodes(x, part(o, i % 2))
        } else {
            self.states(part(n, 0), part(o, 0))
        }
    }
}
