//! Times the library and the Rust by one driver in one run. Arguments: the sizes (4 16 64 128 256 if none).
//!
//! A line has the call, the modes, nanoseconds a call for each side (the least of 15 samples, each of as many calls as take about 2 ms; 5 samples where one call
//! takes above 50 ms), and how many times as long the Rust takes. What a call consumes is made before the clock starts, and what it returns is dropped after it stops. The library's slices are as long as needed and
//! are not cleared between calls.
use driver::*;
use ferrmion_core::encode::majorana::{Encode, MajoranaEncoding, TryEncode};
use ferrmion_core::encode::maxnto::maxnto_symplectic_matrix;
use ferrmion_core::encode::ternarytree::TernaryTree;
use ferrmion_core::operators::{MajoranaProduct, SymplecticMatrix};
use ferrmion_core::states::{FockState, ZBasisEnsemble};
use num_complex::Complex64;
use std::hint::black_box;
use std::time::Instant;

/// Nanoseconds a call.
fn timed<I, R>(mut prepare: impl FnMut() -> I, mut run: impl FnMut(I) -> R) -> f64 {
    let mut sample = |calls: usize| {
        let inputs: Vec<I> = (0..calls).map(|_| prepare()).collect();
        let mut results = Vec::with_capacity(calls);
        let start = Instant::now();
        for i in inputs {
            results.push(black_box(run(black_box(i))));
        }
        start.elapsed().as_nanos() as f64 / calls as f64
    };
    let once = sample(1).min(sample(1));
    let calls = (2e6 / once).clamp(1.0, 20_000.0) as usize;
    let samples = if once > 5e7 { 5 } else { 15 };
    (0..samples).map(|_| sample(calls)).fold(f64::INFINITY, f64::min)
}

fn line(call: &str, n: usize, ours: f64, rust: Option<f64>) {
    match rust {
        Some(t) => println!("{call:52} {n:4} {ours:12.0} {t:14.0} {:10.2}", t / ours),
        None => println!("{call:52} {n:4} {ours:12.0} {:>14} {:>10}", "-", "-"),
    }
}

/// The calls on one row set, which both accept; above 128 modes the library alone.
fn rows(name: &str, m: &SymplecticMatrix) {
    let s = &Set::from_rust(m);
    let (n, w) = (s.n, s.w());
    let mut room = vec![0; 4 * n * w];
    let mut v = vec![0; w];
    assert_eq!(ours::new(s, &mut v, &mut room).number, 0);
    let e = s.raw(&v);
    let both = n <= 128;
    let mut out = vec![0; w];
    let call = |c: &str| format!("{c}, {name}");

    let ours = timed(|| (), |_| assert_eq!(ours::check_rows(s, &v, &mut room).number, 0));
    let rust = both.then(|| timed(|| (m.clone(), e.vacuum_state.clone()), |(m, v)| MajoranaEncoding::with_vacuum(m, v).unwrap()));
    line(&call("row check"), n, ours, rust);

    let ours = timed(|| (), |_| assert_eq!(ours::determine_vacuum_state(s, &mut out, &mut room).number, 0));
    let rust = both.then(|| timed(|| (), |_| MajoranaEncoding::determine_vacuum_state(m).unwrap()));
    line(&call("solving"), n, ours, rust);

    let ours = timed(|| (), |_| assert_eq!(ours::new(s, &mut out, &mut room).number, 0));
    let rust = both.then(|| timed(|| m.clone(), |m| MajoranaEncoding::new(m).unwrap()));
    line(&call("new"), n, ours, rust);

    let mut o = s.clone();
    let mut ov = v.clone();
    let map: Vec<usize> = (0..n).rev().collect();
    let ours = timed(|| (), |_| assert_eq!(ours::apply_mode_enumeration(s, &v, &map, &mut o, &mut ov, &mut room).number, 0));
    let rust = both.then(|| timed(|| map.clone(), |m| e.apply_mode_enumeration(m)));
    line(&call("enumeration"), n, ours, rust);

    let mut list = vec![0; words_for(n)];
    (0..n).for_each(|i| flip(&mut list, i));
    let fock = bools(&list, n);
    let ours = timed(|| (), |_| assert_eq!(ours::try_encode(s, &v, &list, &mut out).number, 0));
    let rust = both.then(|| timed(|| FockState::new(fock.clone(), Complex64::ONE), |f| e.try_encode(f).unwrap()));
    line(&call("encoding, all modes"), n, ours, rust);

    let string = e.try_encode(FockState::new(fock, Complex64::ONE)).unwrap();
    let packed_string = packed(&string.state_bools(), s.q);
    let ours = timed(|| (), |_| assert_eq!(ours::decode_zbasis_state(s, &v, &packed_string, &mut list).number, 0));
    let rust = both.then(|| timed(|| string.clone(), |z| e.decode_zbasis_state(z).unwrap()));
    line(&call("decoding, all modes"), n, ours, rust);
    let many = ZBasisEnsemble::from(vec![string; 64]);
    let rust = both.then(|| timed(|| (), |_| e.decode_zbasis_ensemble(&many)) / 64.0);
    line(&call("decoding, one of an ensemble of 64"), n, ours, rust);

    let numbers: Vec<usize> = [0, 1, n, 2 * n - 1].to_vec();
    let mut oz = vec![0; w];
    let ours = timed(|| (), |_| assert_eq!(ours::product(s, &numbers, 0.5, 0.0, &mut out, &mut oz).number, 0));
    let rust = both.then(|| timed(|| MajoranaProduct::new(numbers.clone(), Complex64::new(0.5, 0.0)), |p| e.encode(p)));
    line(&call("product of 4 rows"), n, ours, rust);
}

/// Building: the four named trees, and a random flatpack with leaves and naive.
fn trees(n: usize) {
    let w = words_for(n);
    let (mut o, mut v, mut room) = (Set::zeros(n, n), vec![0; w], vec![0; 4 * n * w]);
    for (k, name) in ["Jordan-Wigner", "parity", "Bravyi-Kitaev", "JKMN"].iter().enumerate() {
        let ours = timed(|| (), |_| assert_eq!(ours::from_name(k, n, n, &mut o, &mut v, &mut room).number, 0));
        let rust = (n <= 128).then(|| timed(|| (), |_| NAMED[k](n).build_encoding(n).unwrap()));
        line(&format!("build, {name}"), n, ours, rust);
    }
    let r = &mut Random(n as u64);
    let naive = random_tree(r, n, n);
    let leaves = if n <= 128 { Some(with_leaves(r, &naive)) } else { None };
    for (name, f) in [("naive", Some(&naive)), ("with leaves", leaves.as_ref())] {
        let Some(f) = f else { continue };
        let (entries, filled) = lent_flat(f, 0);
        let is = name == "with leaves";
        let ours = timed(|| (), |_| assert_eq!(ours::from_flatpack(is, n, n, &entries, &filled, &mut o, &mut v, &mut room).number, 0));
        let tree = || if is { TernaryTree::from_flatpack(f) } else { TernaryTree::from_flatpack_naive(f) }.unwrap();
        let rust = (n <= 128).then(|| timed(|| (), |_| tree().build_encoding(n).unwrap()));
        line(&format!("build, flatpack {name}"), n, ours, rust);
    }
}

fn main() {
    let sizes: Vec<usize> = std::env::args().skip(1).map(|a| a.parse().expect("a size")).collect();
    let sizes = if sizes.is_empty() { vec![4, 16, 64, 128, 256] } else { sizes };
    println!("{:52} {:>4} {:>12} {:>14} {:>10}", "call", "n", "ours, ns", "the Rust, ns", "ratio");
    for &n in &sizes {
        trees(n);
        rows("Jordan-Wigner", &Set::jordan_wigner(n).to_rust());
        rows("MaxNTO", &maxnto_rows(n).to_rust());
        let mut s = Set::zeros(n, n);
        let ours = timed(|| (), |_| assert_eq!(ours::maxnto(n, &mut s.x, &mut s.z, &mut s.p).number, 0));
        line("MaxNTO", n, ours, (n <= 128).then(|| timed(|| (), |_| maxnto_symplectic_matrix(n).unwrap())));
    }
}
