//! The same propagation in Rust over std alone: the baseline of `bench/propagation`.
use std::time::Instant;

#[derive(Clone, Copy, Debug, PartialEq, Eq)]
enum Lit {
    Plain { atom: u32, negative: bool },
    #[allow(dead_code)]
    Always,
    #[allow(dead_code)]
    Never,
}

/// With fewer literals than these the atoms keep their names.
const FEW: u128 = 256;

struct Trail {
    #[allow(dead_code)]
    units: Vec<(u32, u32)>,
    #[allow(dead_code)]
    last: Option<u32>,
}

#[derive(Clone, Copy)]
struct Occurrence {
    atom: u32,
    negative: bool,
    premise: u32,
    place: u32,
}

impl Occurrence {
    fn rank(self) -> u128 {
        first_rank(self.atom, self.negative) + self.premise as u128
    }

    fn is_of(self, atom: u32, negative: bool) -> bool {
        self.atom == atom && self.negative == negative
    }
}

fn first_rank(atom: u32, negative: bool) -> u128 {
    (2 * atom as u128 + negative as u128) * 4_294_967_296
}

#[derive(Clone, Copy)]
struct Standing {
    left: u64,
    places: u128,
}

struct Work {
    marks: Vec<bool>,
    standings: Vec<Standing>,
    ready: Vec<u32>,
}

fn negate(literal: Lit) -> Lit {
    match literal {
        Lit::Plain { atom, negative } => Lit::Plain { atom, negative: !negative },
        Lit::Always => Lit::Never,
        Lit::Never => Lit::Always,
    }
}

fn table_of(premises: &[Vec<Lit>], goal: &[Lit]) -> Vec<Occurrence> {
    let mut table = Vec::new();
    for (premise, clause) in premises.iter().enumerate() {
        for (place, literal) in clause.iter().enumerate() {
            if let Lit::Plain { atom, negative } = *literal {
                table.push(Occurrence { atom, negative, premise: premise as u32, place: place as u32 });
            }
        }
    }
    for literal in goal {
        if let Lit::Plain { atom, negative } = *literal {
            table.push(Occurrence { atom, negative, premise: premises.len() as u32, place: 0 });
        }
    }
    table.sort_unstable_by_key(|o| o.rank());
    table.dedup_by_key(|o| o.rank());
    table
}

fn leader_of(table: &[Occurrence], atom: u32, negative: bool) -> Option<usize> {
    let rank = first_rank(atom, negative);
    let first = table.partition_point(|o| o.rank() < rank);
    (first < table.len() && table[first].is_of(atom, negative)).then_some(first)
}

fn is_falsified(table: &[Occurrence], marks: &[bool], literal: Lit) -> bool {
    match literal {
        Lit::Plain { atom, negative } => leader_of(table, atom, negative).is_some_and(|first| marks[first]),
        Lit::Always => false,
        Lit::Never => true,
    }
}

fn falsify(table: &[Occurrence], literal: Lit, work: &mut Work) {
    let Lit::Plain { atom, negative } = literal else { return };
    let Some(first) = leader_of(table, atom, negative) else { return };
    if work.marks[first] {
        return;
    }
    work.marks[first] = true;
    let mut at = first;
    while at < table.len() && table[at].is_of(atom, negative) {
        let occurrence = table[at];
        let standing = &mut work.standings[occurrence.premise as usize];
        standing.left -= 1;
        standing.places -= occurrence.place as u128;
        if standing.left <= 1 {
            work.ready.push(occurrence.premise);
        }
        at += 1;
    }
}

fn start(premises: &[Vec<Lit>], table: &[Occurrence]) -> Work {
    let mut standings = Vec::new();
    for clause in premises {
        let always = clause.iter().any(|l| matches!(l, Lit::Always));
        standings.push(Standing { left: if always { 2 } else { 0 }, places: 0 });
    }
    standings.push(Standing { left: 2, places: 0 });
    for occurrence in table {
        let standing = &mut standings[occurrence.premise as usize];
        standing.left += 1;
        standing.places += occurrence.place as u128;
    }
    let mut ready = Vec::new();
    for (premise, standing) in standings.iter().enumerate() {
        if standing.left <= 1 {
            ready.push(premise as u32);
        }
    }
    Work { marks: vec![false; table.len()], standings, ready }
}

fn follow_plainly(premises: &[Vec<Lit>], goal: &[Lit]) -> Option<Trail> {
    let table = table_of(premises, goal);
    let mut work = start(premises, &table);
    for literal in goal {
        falsify(&table, *literal, &mut work);
    }
    for literal in goal {
        if is_falsified(&table, &work.marks, negate(*literal)) {
            return Some(Trail { units: Vec::new(), last: None });
        }
    }
    let mut units = Vec::new();
    while let Some(premise) = work.ready.pop() {
        let standing = work.standings[premise as usize];
        if standing.left == 0 {
            return Some(Trail { units, last: Some(premise) });
        }
        if standing.left == 1 {
            let place = standing.places as u32;
            let opposite = negate(premises[premise as usize][place as usize]);
            if !is_falsified(&table, &work.marks, opposite) {
                units.push((premise, place));
                falsify(&table, opposite, &mut work);
            }
        }
    }
    None
}

/// An atom, and the number of a literal that has it.
#[derive(Clone, Copy)]
struct Key {
    atom: u32,
    number: u32,
}

impl Key {
    fn rank(self) -> u64 {
        self.atom as u64 * 4_294_967_296 + self.number as u64
    }
}

fn literal_count(premises: &[Vec<Lit>], goal: &[Lit]) -> u128 {
    let mut count = goal.len() as u128;
    for clause in premises {
        count += clause.len() as u128;
    }
    count
}

fn add_keys(keys: &mut Vec<Key>, from: u32, clause: &[Lit]) {
    for (place, literal) in clause.iter().enumerate() {
        if let Lit::Plain { atom, .. } = *literal {
            keys.push(Key { atom, number: from + place as u32 });
        }
    }
}

/// A name for each literal's atom: the number of the first literal that has the atom.
fn names_of(premises: &[Vec<Lit>], goal: &[Lit], count: usize) -> Vec<u32> {
    let mut keys = Vec::new();
    let mut from = 0;
    for clause in premises {
        add_keys(&mut keys, from, clause);
        from += clause.len() as u32;
    }
    add_keys(&mut keys, from, goal);
    keys.sort_unstable_by_key(|k| k.rank());
    let mut names = vec![0; count];
    let mut first = 0;
    for (at, key) in keys.iter().enumerate() {
        if key.atom != keys[first].atom {
            first = at;
        }
        names[key.number as usize] = keys[first].number;
    }
    names
}

fn rename(literal: Lit, name: u32) -> Lit {
    match literal {
        Lit::Plain { negative, .. } => Lit::Plain { atom: name, negative },
        Lit::Always => Lit::Always,
        Lit::Never => Lit::Never,
    }
}

fn rename_clause(clause: &[Lit], names: &[u32], from: usize) -> Vec<Lit> {
    let mut renamed = Vec::with_capacity(clause.len());
    for (place, literal) in clause.iter().enumerate() {
        renamed.push(rename(*literal, names[from + place]));
    }
    renamed
}

fn rename_all(premises: &[Vec<Lit>], names: &[u32]) -> Vec<Vec<Lit>> {
    let mut renamed = Vec::with_capacity(premises.len());
    let mut from = 0;
    for clause in premises {
        renamed.push(rename_clause(clause, names, from));
        from += clause.len();
    }
    renamed
}

fn follow_renamed(premises: &[Vec<Lit>], goal: &[Lit], count: usize) -> Option<Trail> {
    let names = names_of(premises, goal, count);
    let renamed = rename_all(premises, &names);
    let renamed_goal = rename_clause(goal, &names, count - goal.len());
    follow_plainly(&renamed, &renamed_goal)
}

#[inline(never)]
fn follows(premises: &[Vec<Lit>], goal: &[Lit]) -> Option<Trail> {
    let count = literal_count(premises, goal);
    if count < FEW || count >= 4_294_967_296 {
        return follow_plainly(premises, goal);
    }
    follow_renamed(premises, goal, count as usize)
}

struct Problem {
    premises: Vec<Vec<Lit>>,
    goal: Vec<Lit>,
}

fn literal(i: u32, negative: bool) -> Lit {
    Lit::Plain { atom: i.wrapping_mul(2_654_435_761), negative }
}

fn wide(n: u32) -> Problem {
    let mut premises: Vec<Vec<Lit>> = (0..n).map(|i| vec![literal(i, true)]).collect();
    premises.push((0..n).map(|i| literal(i, false)).collect());
    Problem { premises, goal: Vec::new() }
}

fn chain(n: u32) -> Problem {
    let mut premises: Vec<Vec<Lit>> = (0..n).rev().map(|i| vec![literal(i, true), literal(i + 1, false)]).collect();
    premises.push(vec![literal(0, false)]);
    Problem { premises, goal: vec![literal(n, false)] }
}

fn random_clause(n: u32, state: &mut u64) -> Vec<Lit> {
    (0..10)
        .map(|_| {
            *state = state.wrapping_mul(6_364_136_223_846_793_005).wrapping_add(1_442_695_040_888_963_407);
            literal(((*state >> 33) % (n as u64 + 1)) as u32, (*state >> 32) % 2 == 1)
        })
        .collect()
}

fn random(n: u32) -> Problem {
    let mut state = 1;
    let premises = (0..n).map(|_| random_clause(n, &mut state)).collect();
    Problem { premises, goal: random_clause(n, &mut state) }
}

fn small(i: u32) -> Problem {
    let (a, b, c, d) = (4 * i, 4 * i + 1, 4 * i + 2, 4 * i + 3);
    Problem {
        premises: vec![
            vec![literal(a, false), literal(b, false)],
            vec![literal(a, true), literal(c, false)],
            vec![literal(b, true), literal(c, false), literal(d, false)],
        ],
        goal: vec![literal(c, false), literal(d, false)],
    }
}

fn solve_all(problems: &[Problem], calls: u32) -> u32 {
    let mut found = 0;
    let mut at = 0;
    for _ in 0..calls {
        if at >= problems.len() {
            at = 0;
        }
        let problem = &problems[at];
        if follows(&problem.premises, &problem.goal).is_some() {
            found += 1;
        }
        at += 1;
    }
    found
}

fn main() {
    let words: Vec<String> = std::env::args().collect();
    let (case, count) = (words[2].as_str(), words[3].parse::<u32>().unwrap());
    let problems = match case {
        "wide" => vec![wide(count)],
        "chain" => vec![chain(count)],
        "random" => vec![random(count)],
        "small" => (0..1_000).map(small).collect(),
        _ => panic!("no such case"),
    };
    let calls = if case == "small" { count } else { 1 };
    println!("{case} {count}: {} of {calls} follow", solve_all(&problems, calls));
    let mut least = u128::MAX;
    for _ in 0..7 {
        let start = Instant::now();
        std::hint::black_box(solve_all(&problems, calls));
        least = least.min(start.elapsed().as_nanos());
    }
    println!("{least} ns");
}
