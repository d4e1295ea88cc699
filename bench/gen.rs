//! The generator's two texts by plain loops of `writeln!`: the baseline of `bench/gen`, over std alone.
//! Usage: gen N [PROBLEM PROOF]: prints the bytes of both and the microseconds, and writes them if files are named.

use std::env;
use std::fs;
use std::io::Write;
use std::time::Instant;

fn binding(i: u32) -> String {
    let p = i - 1;
    format!("(let ((x a{p}) (y a{i})) (or (and (= x b{i}) (= b{i} y)) (and (= x c{i}) (= c{i} y))))")
}

fn problem(n: u32) -> std::io::Result<Vec<u8>> {
    let mut text = Vec::new();
    writeln!(text, "(set-logic QF_UF)\n(declare-sort U 0)\n(declare-fun a0 () U)")?;
    for i in 1..=n {
        writeln!(text, "(declare-fun a{i} () U)\n(declare-fun b{i} () U)\n(declare-fun c{i} () U)")?;
    }
    for i in 1..=n {
        let l = binding(i);
        writeln!(text, "(assert {l})")?;
    }
    writeln!(text, "(assert (not (= a0 a{n})))\n(check-sat)")?;
    Ok(text)
}

/// One of the two ways of a link: its letter, its term and its middle.
fn way(text: &mut Vec<u8>, i: u32, letter: char, term: &str, middle: char) -> std::io::Result<()> {
    let p = i - 1;
    let s = format!("s{i}.{letter}");
    let m = format!("{middle}{i}");
    writeln!(text, "(anchor :step {s})")?;
    writeln!(text, "(assume {s}.h {term})")?;
    writeln!(text, "(step {s}.1 (cl (= a{p} {m})) :rule and :premises ({s}.h))")?;
    writeln!(text, "(step {s}.2 (cl (= {m} a{i})) :rule and :premises ({s}.h))")?;
    writeln!(text, "(step {s}.3 (cl (= a{p} a{i})) :rule trans :premises ({s}.1 {s}.2))")?;
    writeln!(text, "(step {s} (cl (not {term}) (= a{p} a{i})) :rule subproof :discharge ({s}.h))")
}

fn link(text: &mut Vec<u8>, i: u32) -> std::io::Result<()> {
    let (p, q, b, c) = (format!("a{}", i - 1), format!("a{i}"), format!("b{i}"), format!("c{i}"));
    let term_a = format!("(and (= {p} {b}) (= {b} {q}))");
    let term_b = format!("(and (= {p} {c}) (= {c} {q}))");
    let o = format!("(or {term_a} {term_b})");
    let open_a = format!("(and (= x {b}) (= {b} y))");
    let open_b = format!("(and (= x {c}) (= {c} y))");
    let l = format!("(let ((x {p}) (y {q})) (or {open_a} {open_b}))");
    writeln!(text, "(assume h{i} {l})")?;
    writeln!(text, "(anchor :step l{i} :args ((:= (x U) {p}) (:= (y U) {q})))")?;
    writeln!(text, "(step l{i}.1 (cl (= x {p})) :rule refl)")?;
    writeln!(text, "(step l{i}.2 (cl (= y {q})) :rule refl)")?;
    writeln!(text, "(step l{i}.3 (cl (= (= x {b}) (= {p} {b}))) :rule cong :premises (l{i}.1))")?;
    writeln!(text, "(step l{i}.4 (cl (= (= {b} y) (= {b} {q}))) :rule cong :premises (l{i}.2))")?;
    writeln!(text, "(step l{i}.5 (cl (= (= x {c}) (= {p} {c}))) :rule cong :premises (l{i}.1))")?;
    writeln!(text, "(step l{i}.6 (cl (= (= {c} y) (= {c} {q}))) :rule cong :premises (l{i}.2))")?;
    writeln!(text, "(step l{i}.7 (cl (= {open_a} {term_a})) :rule cong :premises (l{i}.3 l{i}.4))")?;
    writeln!(text, "(step l{i}.8 (cl (= {open_b} {term_b})) :rule cong :premises (l{i}.5 l{i}.6))")?;
    writeln!(text, "(step l{i}.9 (cl (= (or {open_a} {open_b}) {o})) :rule cong :premises (l{i}.7 l{i}.8))")?;
    writeln!(text, "(step l{i} (cl (= {l} {o})) :rule let)")?;
    writeln!(text, "(step e{i} (cl (not {l}) {o}) :rule equiv1 :premises (l{i}))")?;
    writeln!(text, "(anchor :step s{i})")?;
    writeln!(text, "(assume s{i}.h {o})")?;
    way(text, i, 'l', &term_a, 'b')?;
    way(text, i, 'r', &term_b, 'c')?;
    writeln!(text, "(step s{i}.o (cl {term_a} {term_b}) :rule or :premises (s{i}.h))")?;
    writeln!(text, "(step s{i}.q (cl (= {p} {q})) :rule resolution :premises (s{i}.o s{i}.l s{i}.r))")?;
    writeln!(text, "(step s{i} (cl (not {o}) (= {p} {q})) :rule subproof :discharge (s{i}.h))")?;
    writeln!(text, "(step q{i} (cl (= {p} {q})) :rule resolution :premises (h{i} e{i} s{i}))")
}

fn proof(n: u32) -> std::io::Result<Vec<u8>> {
    let mut text = Vec::new();
    for i in 1..=n {
        link(&mut text, i)?;
    }
    write!(text, "(assume g (not (= a0 a{n})))\n(step z1 (cl (= a0 a{n})) :rule trans :premises (q1")?;
    for i in 2..=n {
        write!(text, " q{i}")?;
    }
    writeln!(text, "))\n(step z2 (cl) :rule resolution :premises (g z1))")?;
    Ok(text)
}

fn main() -> std::io::Result<()> {
    let words: Vec<String> = env::args().skip(1).collect();
    let n: u32 = words[0].parse().expect("a number");
    let begin = Instant::now();
    let (problem, proof) = (problem(n)?, proof(n)?);
    let took = begin.elapsed().as_micros();
    println!("bytes: {} and {}\n{took} us", problem.len(), proof.len());
    if let [_, first, second] = words.as_slice() {
        fs::write(first, problem)?;
        fs::write(second, proof)?;
    }
    Ok(())
}
