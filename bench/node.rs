// The twin of crates/node_bench in plain Rust: the same root node over the same tables, in the same order of work.
#[derive(Clone, Copy)]
enum Look {
    Settled,
    Broken,
    Forces(i32),
    Open(usize),
}

#[derive(Clone, Copy)]
enum Kind {
    Clause,
    Odd,
}

enum Find {
    Nothing,
    Clash,
    Force(i32),
}

#[derive(Clone, Copy, PartialEq)]
enum Ending {
    Clash,
    Closed,
}

enum Turn {
    Refuted,
    Kept,
    Ranked(u32, u32),
}

#[derive(Clone, Copy, Default)]
struct Record {
    decision: i32,
    height: usize,
}

struct Store {
    clauses: Vec<i32>,
    odds: Vec<i32>,
}

fn rule_at(kind: Kind, table: &[i32], at: usize, partial: &[u8]) -> (Look, usize) {
    let (mut trues, mut free, mut last) = (0usize, 0usize, 0);
    let mut i = at;
    while table[i] != 0 {
        let literal = table[i];
        let byte = partial[literal.unsigned_abs() as usize - 1];
        if byte == 0 {
            free += 1;
            last = literal;
        } else if byte == (if literal < 0 { 2 } else { 1 }) {
            trues += 1;
        }
        i += 1;
    }
    let look = match kind {
        Kind::Clause if trues > 0 => Look::Settled,
        Kind::Clause => match free {
            0 => Look::Broken,
            1 => Look::Forces(last),
            _ => Look::Open(free),
        },
        Kind::Odd => match (free, trues % 2 == 1) {
            (0, true) => Look::Settled,
            (0, false) => Look::Broken,
            (1, true) => Look::Forces(-last),
            (1, false) => Look::Forces(last),
            _ => Look::Open(free),
        },
    };
    (look, i + 1)
}

fn lowest(kind: Kind, table: &[i32], partial: &[u8]) -> Find {
    let mut at = 0;
    while at < table.len() {
        let (look, next) = rule_at(kind, table, at, partial);
        match look {
            Look::Settled | Look::Open(_) => {}
            Look::Broken => return Find::Clash,
            Look::Forces(l) => return Find::Force(l),
        }
        at = next;
    }
    Find::Nothing
}

fn weight(k: usize) -> u32 {
    match k {
        2 => 1000,
        3 => 200,
        4 => 50,
        5 => 10,
        6 => 3,
        _ => 1,
    }
}

fn gain(kind: Kind, table: &[i32], before: &[u8], side: &[u8]) -> u32 {
    let mut total = 0;
    let mut at = 0;
    while at < table.len() {
        let (was, _) = rule_at(kind, table, at, before);
        let (is, next) = rule_at(kind, table, at, side);
        if let (Look::Open(j), Look::Open(k)) = (was, is) {
            if k < j {
                total += weight(k);
            }
        }
        at = next;
    }
    total
}

fn settled(kind: Kind, table: &[i32], partial: &[u8]) -> bool {
    let mut at = 0;
    while at < table.len() {
        let (look, next) = rule_at(kind, table, at, partial);
        if !matches!(look, Look::Settled) {
            return false;
        }
        at = next;
    }
    true
}

fn assign(partial: &mut [u8], l: i32) {
    partial[l.unsigned_abs() as usize - 1] = if l > 0 { 1 } else { 2 };
}

impl Store {
    fn lowest(&self, partial: &[u8]) -> Find {
        match lowest(Kind::Clause, &self.clauses, partial) {
            Find::Nothing => lowest(Kind::Odd, &self.odds, partial),
            find => find,
        }
    }

    fn gain(&self, before: &[u8], side: &[u8]) -> u32 {
        gain(Kind::Clause, &self.clauses, before, side) + gain(Kind::Odd, &self.odds, before, side)
    }

    fn settled(&self, partial: &[u8]) -> bool {
        settled(Kind::Clause, &self.clauses, partial) && settled(Kind::Odd, &self.odds, partial)
    }

    fn close(&self, partial: &mut [u8]) -> Ending {
        loop {
            match self.lowest(partial) {
                Find::Nothing => return Ending::Closed,
                Find::Clash => return Ending::Clash,
                Find::Force(l) => assign(partial, l),
            }
        }
    }

    fn side(&self, partial: &[u8], side: &mut [u8], i: usize, byte: u8) -> Ending {
        side.copy_from_slice(partial);
        side[i] = byte;
        self.close(side)
    }

    fn trial(&self, partial: &mut [u8], side: &mut [u8], places: &mut [i32], i: usize) -> Turn {
        let first = self.side(partial, side, i, 1);
        let (mut yes, mut k) = (0, 0);
        if first == Ending::Closed {
            yes = self.gain(partial, side);
            for j in 0..partial.len() {
                if partial[j] == 0 && side[j] != 0 {
                    places[k] = if side[j] == 1 { j as i32 + 1 } else { -(j as i32 + 1) };
                    k += 1;
                }
            }
        }
        let second = self.side(partial, side, i, 2);
        match (first, second) {
            (Ending::Clash, Ending::Clash) => Turn::Refuted,
            (Ending::Clash, Ending::Closed) => {
                partial.copy_from_slice(side);
                Turn::Kept
            }
            (Ending::Closed, Ending::Clash) => {
                for l in &places[0..k] {
                    assign(partial, *l);
                }
                Turn::Kept
            }
            (Ending::Closed, Ending::Closed) => {
                let no = self.gain(partial, side);
                for l in &places[0..k] {
                    if side[l.unsigned_abs() as usize - 1] == (if *l > 0 { 1 } else { 2 }) {
                        assign(partial, *l);
                    }
                }
                match self.close(partial) {
                    Ending::Clash => Turn::Refuted,
                    Ending::Closed => Turn::Ranked(yes, no),
                }
            }
        }
    }

    // The root node without a cutoff: 0 where it is refuted or a model, else the decided literal.
    fn node(&self, partial: &mut [u8], side: &mut [u8], places: &mut [i32], notes: &mut [Record]) -> i32 {
        if self.close(partial) == Ending::Clash {
            return 0;
        }
        let mut k = 0;
        for i in 0..partial.len() {
            if partial[i] == 0 {
                match self.trial(partial, side, places, i) {
                    Turn::Refuted => return 0,
                    Turn::Kept => {}
                    Turn::Ranked(yes, no) => {
                        let v = i as i32 + 1;
                        let (l, r) = (yes as usize, no as usize);
                        notes[k] = Record {
                            decision: if yes <= no { v } else { -v },
                            height: 1024 * (l * r) + (l + r),
                        };
                        k += 1;
                    }
                }
            }
        }
        if self.settled(partial) {
            return 0;
        }
        let mut top: Option<Record> = None;
        for note in &notes[0..k] {
            if partial[note.decision.unsigned_abs() as usize - 1] == 0 && top.is_none_or(|t| t.height < note.height) {
                top = Some(*note);
            }
        }
        top.map_or(0, |t| t.decision)
    }
}

const BITS: i32 = 64;

// Ten signals for each bit, from 1 on.
fn signal(bit: i32, which: i32) -> i32 {
    10 * bit + which
}

fn and(table: &mut Vec<i32>, o: i32, a: i32, b: i32) {
    table.extend([-o, a, 0, -o, b, 0, o, -a, -b, 0]);
}

fn or(table: &mut Vec<i32>, o: i32, a: i32, b: i32) {
    table.extend([o, -a, 0, o, -b, 0, -o, a, b, 0]);
}

fn xor(table: &mut Vec<i32>, o: i32, a: i32, b: i32) {
    table.extend([-o, a, b, 0, -o, -a, -b, 0, o, -a, b, 0, o, a, -b, 0]);
}

fn majority(table: &mut Vec<i32>, o: i32, a: i32, b: i32, c: i32) {
    table.extend([-o, a, b, 0, -o, a, c, 0, -o, b, c, 0, o, -a, -b, 0, o, -a, -c, 0, o, -b, -c, 0]);
}

// Signals a, b, carry, sum of the one adder; p, g, t, carry, sum of the other; and whether the sums differ.
fn build() -> Store {
    let (mut clauses, mut odds) = (vec![-signal(0, 3), 0, -signal(0, 8), 0], vec![]);
    for bit in 0..BITS {
        let s = |which| signal(bit, which);
        xor(&mut clauses, s(5), s(1), s(2));
        and(&mut clauses, s(6), s(1), s(2));
        and(&mut clauses, s(7), s(5), s(8));
        xor(&mut clauses, s(9), s(5), s(8));
        if bit + 1 < BITS {
            majority(&mut clauses, signal(bit + 1, 3), s(1), s(2), s(3));
            or(&mut clauses, signal(bit + 1, 8), s(6), s(7));
        }
        odds.extend([-s(4), s(1), s(2), s(3), 0, -s(10), s(4), s(9), 0]);
    }
    for bit in 0..BITS {
        clauses.push(signal(bit, 10));
    }
    clauses.push(0);
    Store { clauses, odds }
}

// The decided literal, how many variables are set then, and the sum of the scores.
fn root(store: &Store) -> (i32, usize, usize) {
    let n = 10 * BITS as usize;
    let (mut partial, mut side) = (vec![0u8; n], vec![0u8; n]);
    let (mut places, mut notes) = (vec![0i32; n], vec![Record::default(); n]);
    let literal = store.node(&mut partial, &mut side, &mut places, &mut notes);
    let set = partial.iter().filter(|b| **b != 0).count();
    let scores = notes.iter().fold(0usize, |sum, note| sum.wrapping_add(note.height));
    (literal, set, scores)
}

fn main() {
    let store = build();
    let mut sum = 0usize;
    let mut last = (0, 0, 0);
    for _ in 0..20 {
        last = root(&store);
        sum = sum.wrapping_add(last.2);
    }
    println!("{},{},{sum}", last.0, last.1);
}
