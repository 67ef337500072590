//! All runs in rounds of Algorithm 1 or of UniformVoting with values 0 and 1 and all inputs, by
//! hand, level by level through the states of all nodes: what `roundc explore` is measured by. Sets
//! of values are bits.
//!
//! usage: explore_speed dls1|uniform-voting NODES FAULTS ROUNDS
use std::collections::{HashMap, HashSet};
use std::hash::{BuildHasherDefault, Hash, Hasher};

type Quick = BuildHasherDefault<Multiplied>;
/// The numbers of the nodes' states, the values decided so far, and whether each decision was kept.
type Row = ([u16; 8], u8, bool);
type Level = HashSet<Row, Quick>;
/// For a node, its state and what is sent to it, the states in which it can end the round.
type Ends = HashMap<(usize, u16, [u32; 8]), Vec<u16>, Quick>;
const SILENT: u32 = u32::MAX;

#[derive(Default)]
struct Multiplied(u64);

impl Hasher for Multiplied {
    fn write(&mut self, bytes: &[u8]) {
        for part in bytes.chunks(8) {
            let mut word = [0; 8];
            word[..part.len()].copy_from_slice(part);
            let mixed = self.0.rotate_left(5) ^ u64::from_le_bytes(word);
            self.0 = mixed.wrapping_mul(0x9E37_79B9_7F4A_7C15);
        }
    }
    fn finish(&self) -> u64 {
        self.0 ^ self.0 >> 32
    }
}

#[derive(Clone, Copy, PartialEq, Eq, Hash)]
struct State {
    known: u8, // the proper values of Algorithm 1, or the value of UniformVoting alone
    locks: [u8; 2],
    vote: u8, // a vote, or an owner's proposal
    got: bool,
    done: u8,
}

#[derive(Clone, Copy)]
struct Turn {
    is_dls1: bool,
    nodes: usize,
    faults: usize,
    round: usize,
}

impl Turn {
    fn send(&self, s: State, to: usize) -> u32 {
        let ([a, b], owner) = (s.locks, (self.round - 1) / 4 % self.nodes);
        let open = s.known & !(u8::from(b > 0) | u8::from(a > 0) << 1);
        let (is_sent, first, second) = match (self.is_dls1, (self.round - 1) % 4) {
            (true, 0) => (to == owner, open, 0),
            (true, 1) => (s.vote != 0, s.vote, 0),
            (true, 2) => (s.got && to == owner, 0, 0),
            (true, _) => (a > 0 || b > 0, a, b),
            (false, _) => (true, s.vote, 0),
        };
        if is_sent {
            u32::from_le_bytes([first, second, s.known, 0])
        } else {
            SILENT
        }
    }

    fn end_dls1(&self, mut s: State, me: usize, inbox: &[[u8; 4]]) -> State {
        let (at, phase) = ((self.round - 1) % 4, (self.round - 1) / 4 + 1);
        for &[a, b, known, _] in inbox {
            s.known |= known;
            if at == 1 {
                s.got = true;
                s.locks = [0, 1].map(|v| if a >> v & 1 == 1 { phase as u8 } else { s.locks[v] });
            } else if at == 3 {
                let gives = |v: usize| [b, a][v] > 0 && [b, a][v] >= s.locks[v];
                s.locks = [0, 1].map(|v| if gives(v) { 0 } else { s.locks[v] });
            }
        }
        if at == 0 {
            let told = |v: &u8| inbox.iter().filter(|it| it[0] >> v & 1 == 1).count();
            let found = (0..2).find(|v| told(v) + self.faults >= self.nodes);
            s.vote = found.filter(|_| me == (phase - 1) % self.nodes).map_or(0, |v| 1 << v);
        } else if at == 2 {
            s.done = if s.done == 0 && inbox.len() > self.faults { s.vote } else { s.done };
            (s.got, s.vote) = (false, 0);
        }
        s
    }

    fn end_voting(&self, mut s: State, _me: usize, inbox: &[[u8; 4]]) -> State {
        let votes = inbox.iter().fold(0, |set, it| set | it[0]);
        let open = inbox.iter().filter(|it| it[0] == 0).fold(0, |set, it| set | it[2]);
        let seen = if votes != 0 { votes } else { open };
        s.known = if seen != 0 { seen & seen.wrapping_neg() } else { s.known };
        let decides = self.round % 2 == 0 && votes.count_ones() == 1 && open == 0;
        s.done = if decides { votes } else { s.done };
        s.vote = if self.round % 2 == 1 && open.count_ones() == 1 { open } else { 0 };
        s
    }

    fn ends(&self, state: State, me: usize, sent: &[u32; 8]) -> HashSet<State, Quick> {
        let ends = (0..1 << self.nodes).map(|heard| {
            let is_heard = |j: &usize| heard >> j & 1 == 1 && sent[*j] != SILENT;
            let inbox: Vec<_> = (0..8).filter(is_heard).map(|j| sent[j].to_le_bytes()).collect();
            let end = if self.is_dls1 { Self::end_dls1 } else { Self::end_voting };
            end(self, state, me, &inbox)
        });
        ends.collect()
    }
}

/// Adds the rows that follow on one row to the next level.
fn follow(turn: Turn, row: &Row, states: &mut Vec<State>, known: &mut Ends, level: &mut Level) {
    let mut rows = vec![*row];
    for me in 0..turn.nodes {
        let (old, mut sent) = (states[row.0[me] as usize], [SILENT; 8]);
        (0..turn.nodes).for_each(|j| sent[j] = turn.send(states[row.0[j] as usize], me));
        let ends = known.entry((me, row.0[me], sent)).or_insert_with(|| {
            let number = |end| {
                states.iter().position(|it| *it == end).unwrap_or_else(|| {
                    states.push(end);
                    states.len() - 1
                })
            };
            turn.ends(old, me, &sent).into_iter().map(number).map(|it| it as u16).collect()
        });
        let pairs = rows.iter().flat_map(|row| ends.iter().map(move |end| (*row, *end)));
        rows = pairs
            .map(|((mut numbers, decided, is_kept), end)| {
                let new = states[end as usize].done;
                numbers[me] = end;
                (numbers, decided | new, is_kept && (old.done == 0 || old.done == new))
            })
            .collect();
    }
    level.extend(rows);
}

fn main() {
    let words: Vec<_> = std::env::args().skip(1).collect();
    let [nodes, faults, rounds] = [1, 2, 3].map(|at| words[at].parse().unwrap());
    let (mut first, mut states) = ([usize::MAX; 3], Vec::new());
    for bits in 0..1 << nodes {
        let (mut row, mut given) = (([0; 8], 0, true), 0);
        for me in 0..nodes {
            let known = 1 << (bits >> me & 1);
            states.push(State { known, locks: [0; 2], vote: 0, got: false, done: 0 });
            (row.0[me], given) = (states.len() as u16 - 1, given | known);
        }
        let mut level = Level::from_iter([row]);
        for round in 1..=rounds {
            let turn = Turn { is_dls1: words[0] == "dls1", nodes, faults, round };
            let (mut known, mut after) = (Ends::default(), Level::default());
            level.iter().for_each(|row| follow(turn, row, &mut states, &mut known, &mut after));
            level = after;
            for row in &level {
                let fails = [row.1.count_ones() > 1, row.1 & !given != 0, !row.2];
                let failing = first.iter_mut().zip(fails).filter(|it| it.1);
                failing.for_each(|(first, _)| *first = round.min(*first));
            }
        }
    }
    for (name, round) in ["agreement", "validity", "final"].into_iter().zip(first) {
        let is_kept = round == usize::MAX;
        println!("{name} {}", if is_kept { "yes".into() } else { format!("no in round {round}") });
    }
}
