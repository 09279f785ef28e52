//! Compares the library with the Rust: values, refusals, words written and words not written. Arguments: the seed, and how many rounds of random cases.
//!
//! A case is one call on both sides. Its outcome is equal, or a difference that docs/DIFFERENCES.md lists, or an error, which is printed with its input; the
//! program then ends with status 1.
use driver::*;
use ferrmion_core::encode::majorana::{Encode, MajoranaEncoding, MajoranaEncodingError as E, TryEncode};
use ferrmion_core::encode::maxnto::maxnto_symplectic_matrix;
use ferrmion_core::encode::ternarytree::{TernaryTree, TernaryTreeError};
use ferrmion_core::hamiltonians::QubitHamiltonian;
use ferrmion_core::operators::MajoranaProduct;
use ferrmion_core::states::{FockState, ZBasisEnsemble};
use num_complex::Complex64;
use std::collections::BTreeMap;
use std::panic::{catch_unwind, AssertUnwindSafe};

#[derive(Default)]
struct Tally {
    counts: BTreeMap<(&'static str, usize, &'static str, &'static str), u64>,
    cases: u64,
    skipped: u64,
    errors: u64,
}

impl Tally {
    fn note(&mut self, call: &'static str, number: usize, rust: &'static str, difference: &'static str) {
        if difference == ENDLESS {
            self.skipped += 1;
        } else {
            self.cases += 1;
        }
        *self.counts.entry((call, number, rust, difference)).or_default() += 1;
    }
    fn equal(&mut self, call: &'static str, number: usize, rust: &'static str) {
        self.note(call, number, rust, "");
    }
    fn error(&mut self, call: &'static str, number: usize, rust: &'static str, input: String) {
        self.note(call, number, rust, "NOT LISTED");
        self.errors += 1;
        if self.errors <= 20 {
            println!("error: {call}: {number} against {rust}: {input}");
        }
    }
    /// Equal, or a difference for this reason, or an error.
    fn judge(&mut self, call: &'static str, number: usize, rust: &'static str, equal: bool, listed: Option<&'static str>, input: impl Fn() -> String) {
        match (equal, listed) {
            (true, _) => self.equal(call, number, rust),
            (_, Some(why)) => self.note(call, number, rust, why),
            _ => self.error(call, number, rust, input()),
        }
    }
}

const ODD: &str = "odd d";
const ZERO: &str = "sign of zero";

/// Words of garbage, `need` of them asked for and some more.
fn lent(r: &mut Random, need: usize) -> (Vec<u64>, Vec<u64>) {
    let v: Vec<u64> = (0..need + r.below(3)).map(|_| r.word()).collect();
    (v.clone(), v)
}

/// Whether `now` is `new` over its first words and what it held past them; or, refused, all that it held.
fn left(now: &[u64], was: &[u64], new: Option<&[u64]>) -> bool {
    match new {
        None => now == was,
        Some(ws) => now[..ws.len()] == *ws && now[ws.len()..] == was[ws.len()..],
    }
}

fn cleared(room: &[u64], was: &[u64], need: usize) -> bool {
    room[..need].iter().all(|&w| w == 0) && room[need..] == was[need..]
}

fn majorana(e: &E) -> &'static str {
    match e {
        E::HartreeFockError(..) => "HartreeFockError",
        E::InvalidOperatorsError => "InvalidOperatorsError",
        E::InvalidVacuumStateError(_) => "InvalidVacuumStateError",
        E::NoVacuumStateError => "NoVacuumStateError",
        E::NullStateError(_) => "NullStateError",
    }
}

/// The refusals of ours that the Rust's error stands for.
fn stands(number: usize, error: &str) -> bool {
    matches!((number, error), (10 | 11, "InvalidOperatorsError") | (13, "InvalidVacuumStateError") | (12, "NoVacuumStateError") | (15, "NullStateError"))
}

fn check_rows(t: &mut Tally, r: &mut Random, s: &Set, v: &[u64]) {
    let need = 4 * s.n * s.w();
    let (mut room, was) = lent(r, need);
    let a = ours::check_rows(s, v, &mut room);
    let e = s.raw(v);
    let pair = if a.number == 10 { commuting(&e) } else { (0, 0) };
    let rust = match MajoranaEncoding::with_vacuum(e.operators, e.vacuum_state) {
        Ok(_) => "Ok",
        Err(e) => majorana(&e),
    };
    let tidy = cleared(&room, &was, need) && (a.first, a.second) == pair;
    let equal = if rust == "Ok" { a.number == 0 } else { stands(a.number, rust) };
    let listed = (tidy && a.number == 13 && rust == "Ok" && s.some_odd()).then_some(ODD);
    t.judge("check_rows", a.number, rust, tidy && equal, listed, || format!("{s:?} vacuum {v:?} answer {a:?}"));
}

/// The Rust checks a vacuum by encoding each list of one mode.
fn check_vacuum(t: &mut Tally, s: &Set, v: &[u64]) {
    let a = ours::check_vacuum(s, v);
    let e = s.raw(v);
    let single = |i: usize| FockState::new((0..s.n).map(|j| i == j).collect(), Complex64::ONE);
    let ok = (0..s.n).all(|i| e.try_encode(single(i)).is_ok());
    let listed = (a.number == 13 && ok && s.some_odd()).then_some(ODD);
    t.judge("check_vacuum", a.number, if ok { "Ok" } else { "NullStateError" }, a.number == if ok { 0 } else { 13 }, listed, || format!("{s:?} vacuum {v:?}"));
}

fn solve(t: &mut Tally, r: &mut Random, s: &Set) {
    let need = s.n * (s.w() + 1);
    let (mut room, room_was) = lent(r, need);
    let (mut v, was) = lent(r, s.w());
    let a = ours::determine_vacuum_state(s, &mut v, &mut room);
    let (rust, new) = match MajoranaEncoding::determine_vacuum_state(&s.to_rust()) {
        Ok(z) => ("Ok", Some(packed(&z.state_bools(), s.q))),
        Err(e) => (majorana(&e), None),
    };
    let equal = if rust == "Ok" { a.number == 0 } else { stands(a.number, rust) } && left(&v, &was, new.as_deref()) && cleared(&room, &room_was, need);
    t.judge("determine_vacuum_state", a.number, rust, equal, None, || format!("{s:?} answer {a:?} {v:?} rust {new:?}"));
}

fn new(t: &mut Tally, r: &mut Random, s: &Set) {
    let need = 4 * s.n * s.w();
    let (mut room, room_was) = lent(r, need);
    let (mut v, was) = lent(r, s.w());
    let a = ours::new(s, &mut v, &mut room);
    let m = s.to_rust();
    let pair = if a.number == 10 { commuting(&s.raw(&r.bits(s.q))) } else { (0, 0) };
    let (rust, new) = match MajoranaEncoding::new(m) {
        Ok(e) => ("Ok", Some(packed(&e.vacuum_state.state_bools(), s.q))),
        Err(e) => (majorana(&e), None),
    };
    let equal = if rust == "Ok" { a.number == 0 } else { stands(a.number, rust) }
        && (a.first, a.second) == pair
        && left(&v, &was, new.as_deref())
        && cleared(&room, &room_was, need);
    t.judge("new", a.number, rust, equal, None, || format!("{s:?} answer {a:?} {v:?} rust {new:?}"));
}

/// The Rust enumerates an encoding, which it has checked when it made it.
fn enumerate(t: &mut Tally, r: &mut Random, s: &Set, v: &[u64]) {
    let map = r.permutation(s.n);
    let need = 4 * s.n * s.w();
    let (mut room, room_was) = lent(r, need);
    let (mut ov, ov_was) = lent(r, s.w());
    let mut o = Set { n: s.n, q: s.q, x: lent(r, s.x.len()).0, z: lent(r, s.z.len()).0, p: vec![77; s.p.len() + 1] };
    let was = o.clone();
    let a = ours::apply_mode_enumeration(s, v, &map, &mut o, &mut ov, &mut room);
    let e = s.raw(v);
    let pair = if a.number == 10 { commuting(&e) } else { (0, 0) };
    let (rust, new) = match MajoranaEncoding::with_vacuum(e.operators, e.vacuum_state) {
        Ok(e) => ("Ok", Some(e.apply_mode_enumeration(map.clone()))),
        Err(e) => (majorana(&e), None),
    };
    let rows = match &new {
        None => o == was && ov == ov_was,
        Some(e) => {
            let m = Set::from_rust(&e.operators);
            left(&o.x, &was.x, Some(&m.x))
                && left(&o.z, &was.z, Some(&m.z))
                && o.p[..m.p.len()] == m.p
                && o.p[m.p.len()] == 77
                && left(&ov, &ov_was, Some(&packed(&e.vacuum_state.state_bools(), s.q)))
        }
    };
    let tidy = cleared(&room, &room_was, need) && (a.first, a.second) == pair;
    let equal = if rust == "Ok" { a.number == 0 } else { stands(a.number, rust) } && rows && tidy;
    let listed = (tidy && a.number == 13 && rust == "Ok" && s.some_odd() && o == was && ov == ov_was).then_some(ODD);
    t.judge("apply_mode_enumeration", a.number, rust, equal, listed, || format!("{s:?} vacuum {v:?} map {map:?} answer {a:?}"));
}

fn encode(t: &mut Tally, r: &mut Random, s: &Set, e: &MajoranaEncoding, v: &[u64], list: &[u64]) -> Option<Vec<u64>> {
    let (mut out, was) = lent(r, s.w());
    let a = ours::try_encode(s, v, list, &mut out);
    let (rust, new, phase) = match e.try_encode(FockState::new(bools(list, s.n), Complex64::ONE)) {
        Ok(z) => {
            let phase = match (z.coefficient.re, z.coefficient.im) {
                (1., 0.) => 0,
                (0., 1.) => 1,
                (-1., 0.) => 2,
                (0., -1.) => 3,
                _ => 9,
            };
            ("Ok", Some(packed(&z.state_bools(), s.q)), phase)
        }
        Err(e) => (majorana(&e), None, 0),
    };
    let equal = if rust == "Ok" { a.number == 0 } else { stands(a.number, rust) } && a.phase == phase && left(&out, &was, new.as_deref());
    let odd = a.number == 15 && rust == "Ok" && a.phase == 0 && out == was && (0..s.n).any(|i| bit(list, i) && s.odd(i));
    t.judge("try_encode", a.number, rust, equal, odd.then_some(ODD), || format!("{s:?} vacuum {v:?} list {list:?} answer {a:?} phase {phase}"));
    new
}

fn decode(t: &mut Tally, r: &mut Random, s: &Set, e: &MajoranaEncoding, v: &[u64], string: &[u64]) {
    let (mut out, was) = lent(r, words_for(s.n));
    let a = ours::decode_zbasis_state(s, v, string, &mut out);
    let z = state(string, s.q);
    let all = e.decode_zbasis_ensemble(&ZBasisEnsemble::from(vec![z.clone()]));
    for (call, f) in [("decode_zbasis_state", &e.decode_zbasis_state(z)), ("decode_zbasis_ensemble", &all[0])] {
        let new = f.as_ref().map(|f| packed(&f.state, s.n));
        let equal = a.number == if new.is_some() { 0 } else { 14 } && left(&out, &was, new.as_deref());
        let odd = a.number == 14 && new.is_some() && out == was && s.some_odd();
        t.judge(call, a.number, if new.is_some() { "Some" } else { "None" }, equal, odd.then_some(ODD), || {
            format!("{s:?} vacuum {v:?} string {string:?} answer {a:?} rust {new:?}")
        });
    }
}

fn letters(x: &[u64], z: &[u64], q: usize) -> String {
    (0..q).map(|j| [['I', 'Z'], ['X', 'Y']][bit(x, j) as usize][bit(z, j) as usize]).collect()
}

fn product(t: &mut Tally, r: &mut Random, s: &Set, e: &MajoranaEncoding, numbers: &[usize], re: f64, im: f64) {
    let QubitHamiltonian(h) = e.encode(MajoranaProduct::new(numbers.to_vec(), Complex64::new(re, im)));
    let (text, c) = h.into_iter().next().unwrap();
    let op = times(&e.operators, numbers);
    let (mut ox, xs) = lent(r, s.w());
    let (mut oz, zs) = lent(r, s.w());
    let a = ours::product(s, numbers, re, im, &mut ox, &mut oz);
    let w = s.w();
    let parts = |ox: &[u64], oz: &[u64]| {
        a.number == 0 && a.phase == op.ipower as usize && ox[w..] == xs[w..] && oz[w..] == zs[w..] && letters(&ox[..w], &oz[..w], s.q) == text
    };
    let value = parts(&ox, &oz) && a.re == c.re && a.im == c.im;
    let bits = (a.re.to_bits(), a.im.to_bits()) == (c.re.to_bits(), c.im.to_bits());
    t.judge("product", a.number, "Ok", value && bits, value.then_some(ZERO), || format!("{s:?} {numbers:?} {re} {im} answer {a:?} rust {c:?}"));
    // what a call before has left is spoiled, so that a call that writes nothing shows
    let spoil = |o: &mut [u64]| o[..w].iter_mut().for_each(|k| *k = !*k);
    spoil(&mut ox);
    spoil(&mut oz);
    if im == 0. {
        let b = ours::product_real(s, numbers, re, &mut ox, &mut oz);
        let (br, bi) = if b.imaginary == 0 { (b.value, 0.) } else { (0., b.value) };
        let equal = parts(&ox, &oz) && b.number == 0 && b.phase == a.phase && b.imaginary < 2 && br == c.re && bi == c.im;
        t.judge("product_real", b.number, "Ok", equal, None, || format!("{s:?} {numbers:?} {re} answer {b:?} rust {c:?}"));
        spoil(&mut ox);
        spoil(&mut oz);
    }
    if let [i, j] = *numbers {
        let f = ours::multiply(s.q, s.p[i], s.row_x(i), s.row_z(i), s.p[j], s.row_x(j), s.row_z(j), &mut ox, &mut oz);
        // by the phases of the two orders, and by the Rust's own counts
        let same = op.ipower == times(&e.operators, &[j, i]).ipower;
        let swaps = f.commute == same as usize && same == commute(&e.operators, i, j);
        let equal = parts(&ox, &oz) && f.number == 0 && f.phase == op.ipower as usize && swaps;
        t.judge("multiply", f.number, "Ok", equal, None, || format!("{s:?} {numbers:?} answer {f:?}"));
    }
}

fn maxnto(t: &mut Tally, r: &mut Random, n: usize) {
    let need = 2 * n * words_for(n);
    let (mut x, xs) = lent(r, need);
    let (mut z, zs) = lent(r, need);
    let mut p = vec![77; 2 * n + 1];
    let a = ours::maxnto(n, &mut x, &mut z, &mut p);
    let (rust, equal) = match maxnto_symplectic_matrix(n) {
        Err(_) => ("EvenK", a.number == 18 && x == xs && z == zs && p.iter().all(|&b| b == 77)),
        Ok((phases, m)) => {
            let s = Set { n, q: n, x: x[..need].to_vec(), z: z[..need].to_vec(), p: p[..2 * n].to_vec() };
            let same = (0..2 * n).all(|k| s.p[k] == phases[k] && (0..n).all(|j| bit(s.row_x(k), j) == m[[k, j]] && bit(s.row_z(k), j) == m[[k, n + j]]));
            ("Ok", a.number == 0 && same && x[need..] == xs[need..] && z[need..] == zs[need..] && p[2 * n] == 77)
        }
    };
    t.judge("maxnto", a.number, rust, equal, None, || format!("{n} answer {a:?}"));
}

fn tree_error(e: &TernaryTreeError) -> &'static str {
    use TernaryTreeError::*;
    match e {
        FlatPackError(_) => "FlatPackError",
        InvalidChildError(..) => "InvalidChildError",
        InvalidParentError(..) => "InvalidParentError",
        SelfChildError(..) => "SelfChildError",
        LeafSymplecticError(..) => "LeafSymplecticError",
        BuildEncodingError(..) => "BuildEncodingError",
        QubitReassignmentError => "QubitReassignmentError",
        EncodingValidationError(m) => majorana(m),
    }
}

/// The slices lent to a builder, and what they held.
struct Lent {
    set: Set,
    v: Vec<u64>,
    room: Vec<u64>,
}

impl Lent {
    fn new(r: &mut Random, n: usize, columns: usize) -> Lent {
        let w = words_for(columns);
        let set = Set { n, q: columns, x: lent(r, 2 * n * w).0, z: lent(r, 2 * n * w).0, p: vec![77; 2 * n + 1] };
        Lent { set, v: lent(r, w).0, room: lent(r, 4 * n * w).0 }
    }
    /// What a builder that answers `number` has left: these rows, zeros (13) or all as it was.
    fn left(&self, was: &(Set, Vec<u64>, Vec<u64>), number: usize, rows: Option<&Set>) -> bool {
        let (n, w) = (self.set.n, self.set.w());
        let zeros = Set::zeros(n, self.set.q);
        let new = match number {
            0 => rows,
            13 => Some(&zeros),
            _ => None,
        };
        let outputs = match new {
            None => (&self.set, &self.v) == (&was.0, &was.1),
            Some(s) => {
                left(&self.set.x, &was.0.x, Some(&s.x))
                    && left(&self.set.z, &was.0.z, Some(&s.z))
                    && self.set.p[..2 * n] == s.p
                    && self.set.p[2 * n] == 77
                    && left(&self.v, &was.1, Some(&vec![0; w]))
            }
        };
        outputs && if matches!(number, 1 | 2) { self.room == was.2 } else { cleared(&self.room, &was.2, 4 * n * w) }
    }
    fn was(&self) -> (Set, Vec<u64>, Vec<u64>) {
        (self.set.clone(), self.v.clone(), self.room.clone())
    }
}

/// What the Rust makes of a tree: an encoding, an error, or a panic.
fn built(f: impl FnOnce() -> Result<MajoranaEncoding, TernaryTreeError>) -> (&'static str, Option<MajoranaEncoding>) {
    match catch_unwind(AssertUnwindSafe(f)) {
        Ok(Ok(e)) => ("Ok", Some(e)),
        Ok(Err(e)) => (tree_error(&e), None),
        Err(_) => ("panic", None),
    }
}

const ENDLESS: &str = "the Rust may not end";
const TWICE: &str = "a leaf used twice";
const WRAPS: &str = "a leaf number wraps";

fn flatpack(t: &mut Tally, r: &mut Random, leaves: bool, f: &Flat, q: usize) {
    let n = f.len();
    let (entries, filled) = lent_flat(f, r.below(8));
    let mut o = Lent::new(r, n, q);
    let was = o.was();
    let a = ours::from_flatpack(leaves, n, q, &entries, &filled, &mut o.set, &mut o.v, &mut o.room);
    let call = if leaves { "from_flatpack" } else { "from_flatpack_naive" };
    let input = || format!("leaves {leaves} qubits {q} {f:?} answer {a:?}");
    if cyclic(f) {
        let tidy = a.number != 0 && o.left(&was, a.number, None);
        return t.judge(call, a.number, "-", false, tidy.then_some(ENDLESS), input);
    }
    let (rust, e) = built(|| if leaves { TernaryTree::from_flatpack(f) } else { TernaryTree::from_flatpack_naive(f) }?.build_encoding(q));
    let rows = e.as_ref().map(|e| Set::from_rust(&e.operators));
    let tidy = o.left(&was, a.number, rows.as_ref());
    let vacuum = e.as_ref().is_none_or(|e| !e.vacuum_state.state_bools().iter().any(|&b| b));
    let equal = tidy && vacuum && (a.number == 0) == (rust == "Ok");
    // 9 for a leaf used twice or too high is a case of its own: the Rust writes over, or wraps
    let base = f.iter().map(|e| e.0).max().unwrap_or(0) + 1;
    let mut numbers: Vec<usize> = f.iter().flat_map(|(_, (x, y, z))| [x, y, z]).flatten().copied().filter(|&c| c >= base).collect();
    numbers.sort();
    let listed = if numbers.iter().any(|&c| c >= base + 2 * n) {
        Some(WRAPS)
    } else {
        numbers.windows(2).any(|w| w[0] == w[1]).then_some(TWICE)
    };
    t.judge(call, a.number, rust, equal, listed.filter(|_| tidy && leaves && a.number == 9 && rust == "Ok"), input);
}

fn named(t: &mut Tally, r: &mut Random, tree: usize, n: usize, q: usize) {
    let mut o = Lent::new(r, n, n);
    let was = o.was();
    let a = ours::from_name(tree, n, q, &mut o.set, &mut o.v, &mut o.room);
    let input = || format!("tree {tree} modes {n} qubits {q} answer {a:?}");
    if n > 128 {
        // the Rust has no answer; that it accepts these rows is what can be said
        let w = words_for(n);
        let s = Set { n, q: n, x: o.set.x[..2 * n * w].to_vec(), z: o.set.z[..2 * n * w].to_vec(), p: o.set.p[..2 * n].to_vec() };
        let formula = tree != 0 || s == Set::jordan_wigner(n);
        let ok = a.number == 0 && o.left(&was, 0, Some(&s)) && formula && MajoranaEncoding::with_vacuum(s.to_rust(), state(&vec![0; w], n)).is_ok();
        return t.judge("from_name", a.number, "with_vacuum Ok", ok, None, input);
    }
    let (rust, e) = built(|| NAMED[tree](n).build_encoding(q));
    let rows = e.as_ref().map(|e| Set::from_rust(&e.operators));
    let equal = o.left(&was, a.number, rows.as_ref()) && (a.number == 0) == (rust == "Ok");
    t.judge("from_name", a.number, rust, equal, None, input);
}

/// Every flatpack of one and of two entries with small numbers, with leaves and naive.
fn small_trees(t: &mut Tally, r: &mut Random) {
    let slot = |k: usize, numbers: &[usize]| if k == 0 { None } else { Some(numbers[k - 1]) };
    for leaves in [true, false] {
        let numbers = [0, 1, 2, 3, 4, 5, 6];
        for code in 0..8usize.pow(3) * 3 * 3 {
            let d = |k: u32| slot(code / 8usize.pow(k) % 8, &numbers);
            flatpack(t, r, leaves, &vec![(code / 512 % 3, (d(0), d(1), d(2)))], 1 + code / 512 / 3);
        }
        for (a, b, q, numbers) in [(0, 1, 2, [0, 1, 2, 3, 4, 5]), (1, 0, 2, [0, 1, 2, 3, 4, 5]), (0, 2, 3, [0, 2, 3, 4, 5, 6]), (1, 1, 3, [0, 1, 2, 3, 4, 5])] {
            for code in 0..7usize.pow(6) {
                let d = |k: u32| slot(code / 7usize.pow(k) % 7, &numbers);
                flatpack(t, r, leaves, &vec![(a, (d(0), d(1), d(2))), (b, (d(3), d(4), d(5)))], q);
            }
        }
    }
}

/// Random trees of n nodes: naive, with leaves, and each with a fault.
fn trees(t: &mut Tally, r: &mut Random, n: usize, rounds: usize) {
    for k in 0..rounds {
        let q = if k % 2 == 0 { n } else { n + r.below(257 - n).min(70) };
        let mut f = random_tree(r, n, q);
        flatpack(t, r, false, &f, q);
        let mut g = with_leaves(r, &f);
        flatpack(t, r, true, &g, q);
        flatpack(t, r, false, &g, q);
        for _ in 0..3 {
            damage_tree(r, &mut f, q);
            flatpack(t, r, false, &f, q);
            damage_tree(r, &mut g, q);
            flatpack(t, r, true, &g, q);
        }
    }
}

fn coefficient(r: &mut Random) -> f64 {
    const FIXED: [f64; 8] = [0.0, -0.0, 1.0, -1.0, f64::MAX, f64::MIN_POSITIVE, 5e-324, 0.1];
    match r.below(3) {
        0 => FIXED[r.below(8)],
        1 => (r.word() as i64) as f64,
        _ => {
            let x = f64::from_bits(r.word());
            if x.is_finite() { x } else { 2.0 }
        }
    }
}

/// States and products of one row set.
fn states(t: &mut Tally, r: &mut Random, s: &Set, v: &[u64], rounds: usize) {
    let e = s.raw(v);
    for _ in 0..rounds {
        let list = r.bits(s.n);
        let string = encode(t, r, s, &e, v, &list);
        if let Some(mut z) = string {
            decode(t, r, s, &e, v, &z);
            let j = r.below(s.q);
            flip(&mut z, j);
            decode(t, r, s, &e, v, &z);
        }
        let any = r.bits(s.q);
        decode(t, r, s, &e, v, &any);
        let len = [0, 1, 2, 2, 3, 4, 8, 17][r.below(8)];
        let numbers: Vec<usize> = (0..len).map(|_| r.below(2 * s.n)).collect();
        let (re, im) = (coefficient(r), if r.below(2) == 0 { 0. } else { coefficient(r) });
        product(t, r, s, &e, &numbers, re, im);
    }
}

/// Every check of one row set.
fn checks(t: &mut Tally, r: &mut Random, s: &Set, v: &[u64]) {
    check_rows(t, r, s, v);
    check_vacuum(t, s, v);
    solve(t, r, s);
    new(t, r, s);
    enumerate(t, r, s, v);
}

/// All row sets of one mode on one and two qubits, at every vacuum, list and string.
fn one_mode(t: &mut Tally, r: &mut Random) {
    for q in 1..=2 {
        let bits = 1u64 << q;
        for code in 0..16 * bits.pow(4) {
            let (p, rest) = (code % 16, code / 16);
            let digit = |k: u32| rest / bits.pow(k) % bits;
            let s = Set { n: 1, q, x: vec![digit(0), digit(1)], z: vec![digit(2), digit(3)], p: vec![(p % 4) as u8, (p / 4) as u8] };
            for v in 0..bits {
                checks(t, r, &s, &[v]);
                let e = s.raw(&[v]);
                for list in 0..2 {
                    encode(t, r, &s, &e, &[v], &[list]);
                }
                for string in 0..bits {
                    decode(t, r, &s, &e, &[v], &[string]);
                }
            }
            let e = s.raw(&[0]);
            for numbers in [&[][..], &[0], &[1], &[0, 1], &[1, 0], &[0, 0], &[1, 1], &[0, 1, 0]] {
                product(t, r, &s, &e, numbers, 2.0, 0.0);
            }
        }
    }
}

/// All lists and strings up to 8 modes.
fn all_states(t: &mut Tally, r: &mut Random, sets: usize) {
    for n in 1..=8 {
        for k in 0..sets {
            let mut s = good(r, n);
            if k % 2 == 1 {
                scramble(r, &mut s);
            }
            if k % 5 == 4 {
                damage(r, &mut s);
            }
            let v = vacuum(r, &s);
            let e = s.raw(&v);
            for bits in 0..1u64 << n {
                encode(t, r, &s, &e, &v, &[bits]);
                decode(t, r, &s, &e, &v, &[bits]);
            }
        }
    }
}

fn main() {
    let argument = |k: usize, or: u64| std::env::args().nth(k).map_or(or, |a| a.parse().expect("a number"));
    let (seed, rounds) = (argument(1, 20261115), argument(2, 1) as usize);
    std::panic::set_hook(Box::new(|_| ()));
    let (t, r) = (&mut Tally::default(), &mut Random(seed));
    one_mode(t, r);
    println!("one mode: {} cases", t.cases);
    all_states(t, r, 30 * rounds);
    println!("all lists and strings up to 8 modes: {} cases in all", t.cases);
    for n in 1..=256 {
        maxnto(t, r, n);
    }
    small_trees(t, r);
    println!("all flatpacks of one and two entries with small numbers: {} cases in all", t.cases);
    for tree in 0..4 {
        for n in (1..=64).chain([65, 66, 96, 126, 127, 128, 129, 130, 192, 193, 255, 256]) {
            named(t, r, tree, n, n);
            named(t, r, tree, n, n + (256 - n) / 2);
            if n > 1 && n <= 128 {
                named(t, r, tree, n, n - 1);
            }
        }
    }
    for n in 1..=12 {
        trees(t, r, n, 400 * rounds);
    }
    for n in [31, 32, 33, 62, 63, 64, 65, 66, 126, 127, 128] {
        trees(t, r, n, 4 * rounds);
    }
    println!("trees: {} cases in all", t.cases);
    // small sets, many of them
    for k in 0..12_000 * rounds {
        let n = 1 + r.below(4);
        let mut s = match k % 3 {
            0 => raw(r, n, 1 + n / 2 + k % 2),
            _ => good(r, n),
        };
        if k % 3 > 0 {
            scramble(r, &mut s);
            if r.below(4) == 0 {
                let q = n + r.below(3);
                s = widen(r, &s, q);
            }
        }
        if k % 3 == 2 {
            damage(r, &mut s);
        }
        let v = vacuum(r, &s);
        checks(t, r, &s, &v);
        states(t, r, &s, &v, 4);
    }
    println!("small sets: {} cases in all", t.cases);
    // every size around the boundaries of words, and above 128 modes
    for n in [1, 2, 3, 16, 31, 32, 33, 62, 63, 64, 65, 66, 126, 127, 128, 129, 191, 192, 193, 254, 255, 256] {
        for k in 0..5 * rounds {
            let q = 1 + r.below(256);
            let mut s = match k % 5 {
                4 => raw(r, n, q),
                _ => good(r, n),
            };
            if k % 5 == 1 || k % 5 == 2 {
                scramble(r, &mut s);
            }
            if k % 5 == 1 {
                let q = n + r.below(257 - n);
                s = widen(r, &s, q);
            }
            if k % 5 == 3 {
                damage(r, &mut s);
            }
            let v = vacuum(r, &s);
            // the Rust's row check takes long at these sizes
            if n <= 66 || k % 5 == 2 || k % 5 == 3 {
                checks(t, r, &s, &v);
            } else {
                check_vacuum(t, &s, &v);
                solve(t, r, &s);
            }
            states(t, r, &s, &v, 40);
        }
    }
    println!("\ncall                     ours  the Rust                  count  difference");
    for ((call, number, rust, difference), count) in &t.counts {
        println!("{call:24} {number:4}  {rust:23} {count:8}  {difference}");
    }
    println!("\nseed {seed}, {} cases compared, {} more not run on the Rust, {} differences that are on no list", t.cases, t.skipped, t.errors);
    std::process::exit((t.errors > 0) as i32);
}
