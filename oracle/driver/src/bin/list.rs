//! Writes a fixed list of cases and the Rust's answers to them, for the program `replay` of the gate: the arguments are the two files.
//!
//! A case is a line of hexadecimal numbers: the call, modes, qubits, and then what it takes; an answer is a line with the number of 01's table that the Rust's answer
//! stands for, and the values. Nothing of the library is asked. Cases that the documents list as differences are left out, and errors of the Rust that stand for no one number.
use driver::*;
use ferrmion_core::encode::majorana::{Encode, MajoranaEncoding, MajoranaEncodingError as E, TryEncode};
use ferrmion_core::encode::maxnto::maxnto_symplectic_matrix;
use ferrmion_core::encode::ternarytree::{TernaryTree, TernaryTreeError as T};
use ferrmion_core::hamiltonians::QubitHamiltonian;
use ferrmion_core::operators::{DenseBlock, MajoranaProduct, SymplecticMatrix};
use ferrmion_core::states::FockState;
use num_complex::Complex64;
use std::panic::{catch_unwind, AssertUnwindSafe};

#[derive(Default)]
struct List {
    cases: String,
    answers: String,
    count: usize,
}

fn text(numbers: &[u64]) -> String {
    let t: Vec<String> = numbers.iter().map(|k| format!("{k:x}")).collect();
    t.join(" ") + "\n"
}

impl List {
    fn add(&mut self, case: &[u64], answer: &[u64]) {
        self.cases += &text(case);
        self.answers += &text(answer);
        self.count += 1;
    }
}

/// A string or a list in two words.
fn two(ws: &[u64]) -> [u64; 2] {
    [ws[0], *ws.get(1).unwrap_or(&0)]
}

/// The numbers of a case on a row set.
fn case(call: u64, s: &Set, more: &[&[u64]]) -> Vec<u64> {
    let mut v = vec![call, s.n as u64, s.q as u64];
    v.extend(&s.x);
    v.extend(&s.z);
    v.extend(s.p.iter().map(|&p| p as u64));
    more.iter().for_each(|m| v.extend(*m));
    v
}

fn refused(e: &E, s: &Set) -> Vec<u64> {
    match e {
        E::InvalidOperatorsError => {
            let (i, j) = commuting(&s.raw(&vec![0; s.w()]));
            vec![10, i as u64, j as u64]
        }
        E::NoVacuumStateError => vec![12],
        E::InvalidVacuumStateError(_) => vec![13],
        E::NullStateError(_) => vec![15],
        E::HartreeFockError(..) => unreachable!(),
    }
}

fn done(parts: &[&[u64]]) -> Vec<u64> {
    let mut v = vec![0];
    parts.iter().for_each(|p| v.extend(*p));
    v
}

fn rows(m: &SymplecticMatrix) -> Vec<u64> {
    let s = Set::from_rust(m);
    let p: Vec<u64> = s.p.iter().map(|&p| p as u64).collect();
    [s.x, s.z, p].concat()
}

fn on_set(l: &mut List, r: &mut Random, s: &Set, large: bool) {
    if s.some_odd() {
        return;
    }
    let v = vacuum(r, s);
    let e = s.raw(&v);
    match MajoranaEncoding::determine_vacuum_state(&e.operators) {
        Ok(z) => l.add(&case(0, s, &[]), &done(&[&packed(&z.state_bools(), s.q)])),
        Err(x) => l.add(&case(0, s, &[]), &refused(&x, s)),
    }
    match MajoranaEncoding::new(e.operators.clone()) {
        Ok(f) => l.add(&case(1, s, &[]), &done(&[&packed(&f.vacuum_state.state_bools(), s.q)])),
        Err(x) => l.add(&case(1, s, &[]), &refused(&x, s)),
    }
    let map: Vec<u64> = r.permutation(s.n).into_iter().map(|k| k as u64).collect();
    match MajoranaEncoding::with_vacuum(e.operators.clone(), e.vacuum_state.clone()) {
        Ok(f) => {
            l.add(&case(2, s, &[&two(&v)]), &done(&[]));
            let g = f.apply_mode_enumeration(map.iter().map(|&k| k as usize).collect());
            if !large {
                l.add(&case(5, s, &[&two(&v), &map]), &done(&[&rows(&g.operators), &v]));
            }
        }
        Err(x) => {
            l.add(&case(2, s, &[&two(&v)]), &refused(&x, s));
            if !large {
                l.add(&case(5, s, &[&two(&v), &map]), &refused(&x, s));
            }
        }
    }
    let list = r.bits(s.n);
    let mut strings = vec![r.bits(s.q)];
    match e.try_encode(FockState::new(bools(&list, s.n), Complex64::ONE)) {
        Ok(z) => {
            let phase = [(1., 0.), (0., 1.), (-1., 0.), (0., -1.)].iter().position(|&c| c == (z.coefficient.re, z.coefficient.im)).unwrap();
            let string = packed(&z.state_bools(), s.q);
            l.add(&case(3, s, &[&two(&v), &two(&list)]), &done(&[&[phase as u64], &string]));
            strings.push(string);
        }
        Err(x) => l.add(&case(3, s, &[&two(&v), &two(&list)]), &refused(&x, s)),
    }
    for string in strings {
        match e.decode_zbasis_state(state(&string, s.q)) {
            Some(f) => l.add(&case(4, s, &[&two(&v), &two(&string)]), &done(&[&packed(&f.state, s.n)])),
            None => l.add(&case(4, s, &[&two(&v), &two(&string)]), &[14]),
        }
    }
    let numbers: Vec<u64> = (0..r.below(5)).map(|_| r.below(2 * s.n) as u64).collect();
    let QubitHamiltonian(h) = e.encode(MajoranaProduct::new(numbers.iter().map(|&k| k as usize).collect(), Complex64::ONE));
    let (letters, c) = h.into_iter().next().unwrap();
    let power = [(1., 0.), (0., 1.), (-1., 0.), (0., -1.)].iter().position(|&k| k == (c.re, c.im)).unwrap();
    let part = |on: &str| packed(&letters.chars().map(|c| on.contains(c)).collect::<Vec<bool>>(), s.q);
    l.add(&case(6, s, &[&[numbers.len() as u64], &numbers]), &done(&[&[power as u64], &part("XY"), &part("YZ")]));
}

fn on_tree(l: &mut List, leaves: bool, f: &Flat, q: usize) {
    if cyclic(f) || f.iter().any(|e| e.0 > 255) || f.iter().enumerate().any(|(i, e)| f[..i].iter().any(|d| d.0 == e.0)) || f.iter().any(|e| e.0 >= q) {
        return;
    }
    let mut c = vec![if leaves { 9 } else { 10 }, f.len() as u64, q as u64];
    let (entries, filled) = lent_flat(f, 0);
    c.extend(entries.iter().map(|&k| k as u64));
    c.extend(filled.iter().map(|&b| b as u64));
    let built = catch_unwind(AssertUnwindSafe(|| if leaves { TernaryTree::from_flatpack(f) } else { TernaryTree::from_flatpack_naive(f) }?.build_encoding(q)));
    let base = f.iter().map(|e| e.0).max().unwrap() + 1;
    let mut seen = vec![];
    for k in f.iter().flat_map(|(_, (x, y, z))| [x, y, z]).flatten().filter(|k| **k >= base) {
        // a leaf used twice or too high is a listed difference
        if leaves && (seen.contains(k) || *k >= base + 2 * f.len()) {
            return;
        }
        seen.push(*k);
    }
    match built {
        Ok(Ok(e)) => l.add(&c, &done(&[&rows(&e.operators), &packed(&e.vacuum_state.state_bools(), q)])),
        Ok(Err(T::SelfChildError(..))) => l.add(&c, &[5]),
        Ok(Err(T::InvalidParentError(..))) => l.add(&c, &[6]),
        Ok(Err(T::FlatPackError(_))) => l.add(&c, &[4]),
        Ok(Err(T::EncodingValidationError(E::InvalidVacuumStateError(_)))) => l.add(&c, &[13]),
        _ => (),
    }
}

/// Two rows multiplied: the phase, whether the other order has the same one, and the parts.
fn pair(l: &mut List, s: &Set) {
    let m = s.to_rust();
    let (op, back) = (times(&m, &[0, 1]), times(&m, &[1, 0]));
    let row = |k: usize| [&[s.p[k] as u64][..], &two(s.row_x(k)), &two(s.row_z(k))].concat();
    let part = |b: &DenseBlock| packed(&b.get_term(0).to_bool_array(), s.q);
    let c = [&[11, 1, s.q as u64][..], &row(0), &row(1)].concat();
    l.add(&c, &done(&[&[op.ipower as u64, (op.ipower == back.ipower) as u64], &part(&op.x), &part(&op.z)]));
}

/// Random rows; the first one with itself; and with one that differs from it in the last column only.
fn pairs(l: &mut List, r: &mut Random) {
    for q in [1, 2, 3, 5, 63, 64, 65, 127, 128] {
        for _ in 0..2 {
            let mut s = Set::zeros(1, q);
            (s.x, s.z) = ([r.bits(q), r.bits(q)].concat(), [r.bits(q), r.bits(q)].concat());
            s.p = vec![r.below(4) as u8, r.below(4) as u8];
            pair(l, &s);
            let w = s.w();
            s.x.copy_within(..w, w);
            s.z.copy_within(..w, w);
            s.p[1] = s.p[0];
            pair(l, &s);
            flip(&mut s.x[w..], q - 1);
            pair(l, &s);
        }
    }
}

fn main() {
    std::panic::set_hook(Box::new(|_| ()));
    let (l, r) = (&mut List::default(), &mut Random(7));
    for n in [1, 2, 3, 4, 6, 8, 10, 12] {
        match maxnto_symplectic_matrix(n) {
            Ok((p, m)) => {
                let (x, z) = m.view().split_at(ndarray::Axis(1), n);
                l.add(&[7, n as u64, n as u64], &done(&[&rows(&SymplecticMatrix::from_arrays_with_ipowers(x.to_owned(), z.to_owned(), p))]));
            }
            Err(_) => l.add(&[7, n as u64, n as u64], &[18]),
        }
        for tree in 0..4 {
            for q in [n, n + 3] {
                let e = NAMED[tree](n).build_encoding(q).unwrap();
                l.add(&[8, n as u64, q as u64, tree as u64], &done(&[&rows(&e.operators), &packed(&e.vacuum_state.state_bools(), n)]));
            }
        }
    }
    for k in 0..60 {
        let n = 1 + k % 6;
        let q = n + k % 3;
        let mut f = random_tree(r, n, q);
        on_tree(l, false, &f, q);
        let mut g = with_leaves(r, &f);
        on_tree(l, true, &g, q);
        damage_tree(r, &mut f, q);
        on_tree(l, false, &f, q);
        damage_tree(r, &mut g, q);
        on_tree(l, true, &g, q);
    }
    for k in 0..48 {
        let n = 1 + k % 5;
        let mut s = if k % 4 == 3 { raw(r, n, 1 + k % 4) } else { good(r, n) };
        if k % 2 == 1 {
            scramble(r, &mut s);
        }
        if k % 4 == 2 {
            damage(r, &mut s);
        }
        on_set(l, r, &s, false);
    }
    for n in [31, 33] {
        let mut s = good(r, n);
        scramble(r, &mut s);
        let s = widen(r, &s, 65 + n);
        on_set(l, r, &s, true);
    }
    pairs(l, r);
    assert!(l.cases.len() <= 65536, "the program reads no more: {}", l.cases.len());
    let files: Vec<String> = std::env::args().skip(1).collect();
    std::fs::write(&files[0], &l.cases).unwrap();
    std::fs::write(&files[1], l.answers.clone() + &format!("{} cases\n", l.count)).unwrap();
    println!("{} cases, {} and {} bytes", l.count, l.cases.len(), l.answers.len());
}
