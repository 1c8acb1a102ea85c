#![allow(dead_code)]
// The twin of crates/store_bench in plain Rust: the same walks over the same tables.
#[derive(Clone, Copy)]
enum Look {
    Settled,
    Broken,
    Forces(i32),
    Open(usize),
}

#[derive(Clone, Copy)]
enum Kind {
    Clause,
    Odd,
}

enum Find {
    Nothing,
    Clash,
    Force(i32),
}

fn rule_at(kind: Kind, table: &[i32], at: usize, partial: &[u8]) -> (Look, usize) {
    let (mut trues, mut free, mut last) = (0usize, 0usize, 0);
    let mut i = at;
    while table[i] != 0 {
        let literal = table[i];
        let byte = partial[literal.unsigned_abs() as usize - 1];
        if byte == 0 {
            free += 1;
            last = literal;
        } else if byte == (if literal < 0 { 2 } else { 1 }) {
            trues += 1;
        }
        i += 1;
    }
    let look = match kind {
        Kind::Clause if trues > 0 => Look::Settled,
        Kind::Clause => match free {
            0 => Look::Broken,
            1 => Look::Forces(last),
            _ => Look::Open(free),
        },
        Kind::Odd => match (free, trues % 2 == 1) {
            (0, true) => Look::Settled,
            (0, false) => Look::Broken,
            (1, true) => Look::Forces(-last),
            (1, false) => Look::Forces(last),
            _ => Look::Open(free),
        },
    };
    (look, i + 1)
}

fn lowest(kind: Kind, table: &[i32], partial: &[u8]) -> Find {
    let mut at = 0;
    while at < table.len() {
        let (look, next) = rule_at(kind, table, at, partial);
        match look {
            Look::Settled | Look::Open(_) => {}
            Look::Broken => return Find::Clash,
            Look::Forces(l) => return Find::Force(l),
        }
        at = next;
    }
    Find::Nothing
}

fn round(clauses: &[i32], odds: &[i32], partial: &mut [u8]) -> bool {
    if partial.iter().any(|b| *b > 2) {
        return false;
    }
    let find = match lowest(Kind::Clause, clauses, partial) {
        Find::Nothing => lowest(Kind::Odd, odds, partial),
        find => find,
    };
    match find {
        Find::Force(l) => {
            partial[l.unsigned_abs() as usize - 1] = if l > 0 { 1 } else { 2 };
            true
        }
        Find::Nothing | Find::Clash => false,
    }
}

fn main() {
    let clauses: Vec<i32> = (1..2000).flat_map(|v| [-v, v + 1, 0]).collect();
    let odds = [1, 2, 2000, 0];
    let mut all = 0;
    for _ in 0..20 {
        let mut partial = [0u8; 2000];
        partial[0] = 1;
        while round(&clauses, &odds, &mut partial) {
            all += 1;
        }
    }
    println!("{all}");
}
