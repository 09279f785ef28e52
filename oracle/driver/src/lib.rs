//! Shared by the comparison and the timing: the library's calls over slices, row sets, and the same row sets as the Rust has them.
#![allow(clippy::too_many_arguments)]
use ferrmion_core::encode::majorana::MajoranaEncoding;
use ferrmion_core::encode::maxnto::maxnto_symplectic_matrix;
use ferrmion_core::encode::ternarytree::TernaryTree;
use ferrmion_core::operators::{SymplecticMatrix, SymplecticOperator};
use ferrmion_core::states::ZBasisState;
use ndarray::{Array1, Array2};
use num_complex::Complex64;
use std::collections::HashMap;

/// The declarations of include/ropethistle.rs, and each call over slices.
pub mod ours {
    include!("ropethistle.rs");
    use super::Set;

    pub fn check_vacuum(s: &Set, v: &[u64]) -> Answer {
        unsafe { ropethistle_check_vacuum(s.n, s.q, s.x.as_ptr(), s.x.len(), s.z.as_ptr(), s.z.len(), s.p.as_ptr(), s.p.len(), v.as_ptr(), v.len()) }
    }
    pub fn check_rows(s: &Set, v: &[u64], room: &mut [u64]) -> Answer {
        unsafe {
            ropethistle_check_rows(
                s.n, s.q, s.x.as_ptr(), s.x.len(), s.z.as_ptr(), s.z.len(), s.p.as_ptr(), s.p.len(), v.as_ptr(), v.len(), room.as_mut_ptr(), room.len(),
            )
        }
    }
    pub fn determine_vacuum_state(s: &Set, v: &mut [u64], room: &mut [u64]) -> Answer {
        unsafe {
            ropethistle_determine_vacuum_state(
                s.n, s.q, s.x.as_ptr(), s.x.len(), s.z.as_ptr(), s.z.len(), s.p.as_ptr(), s.p.len(), v.as_mut_ptr(), v.len(), room.as_mut_ptr(), room.len(),
            )
        }
    }
    pub fn new(s: &Set, v: &mut [u64], room: &mut [u64]) -> Answer {
        unsafe {
            ropethistle_new(
                s.n, s.q, s.x.as_ptr(), s.x.len(), s.z.as_ptr(), s.z.len(), s.p.as_ptr(), s.p.len(), v.as_mut_ptr(), v.len(), room.as_mut_ptr(), room.len(),
            )
        }
    }
    pub fn apply_mode_enumeration(s: &Set, v: &[u64], map: &[usize], o: &mut Set, ov: &mut [u64], room: &mut [u64]) -> Answer {
        unsafe {
            ropethistle_apply_mode_enumeration(
                s.n, s.q, s.x.as_ptr(), s.x.len(), s.z.as_ptr(), s.z.len(), s.p.as_ptr(), s.p.len(), v.as_ptr(), v.len(), map.as_ptr(), map.len(),
                o.x.as_mut_ptr(), o.x.len(), o.z.as_mut_ptr(), o.z.len(), o.p.as_mut_ptr(), o.p.len(), ov.as_mut_ptr(), ov.len(),
                room.as_mut_ptr(), room.len(),
            )
        }
    }
    pub fn try_encode(s: &Set, v: &[u64], list: &[u64], out: &mut [u64]) -> Phase {
        unsafe {
            ropethistle_try_encode(
                s.n, s.q, s.x.as_ptr(), s.x.len(), s.z.as_ptr(), s.z.len(), s.p.as_ptr(), s.p.len(), v.as_ptr(), v.len(), list.as_ptr(), list.len(),
                out.as_mut_ptr(), out.len(),
            )
        }
    }
    pub fn decode_zbasis_state(s: &Set, v: &[u64], string: &[u64], out: &mut [u64]) -> Answer {
        unsafe {
            ropethistle_decode_zbasis_state(
                s.n, s.q, s.x.as_ptr(), s.x.len(), s.z.as_ptr(), s.z.len(), s.p.as_ptr(), s.p.len(), v.as_ptr(), v.len(), string.as_ptr(), string.len(),
                out.as_mut_ptr(), out.len(),
            )
        }
    }
    pub fn product(s: &Set, numbers: &[usize], re: f64, im: f64, ox: &mut [u64], oz: &mut [u64]) -> Product {
        unsafe {
            ropethistle_product(
                s.n, s.q, s.x.as_ptr(), s.x.len(), s.z.as_ptr(), s.z.len(), s.p.as_ptr(), s.p.len(), numbers.as_ptr(), numbers.len(), re, im,
                ox.as_mut_ptr(), ox.len(), oz.as_mut_ptr(), oz.len(),
            )
        }
    }
    pub fn product_real(s: &Set, numbers: &[usize], c: f64, ox: &mut [u64], oz: &mut [u64]) -> RealProduct {
        unsafe {
            ropethistle_product_real(
                s.n, s.q, s.x.as_ptr(), s.x.len(), s.z.as_ptr(), s.z.len(), s.p.as_ptr(), s.p.len(), numbers.as_ptr(), numbers.len(), c,
                ox.as_mut_ptr(), ox.len(), oz.as_mut_ptr(), oz.len(),
            )
        }
    }
    pub fn multiply(q: usize, left: u8, lx: &[u64], lz: &[u64], right: u8, rx: &[u64], rz: &[u64], ox: &mut [u64], oz: &mut [u64]) -> Multiplied {
        unsafe {
            ropethistle_multiply(
                q, left, lx.as_ptr(), lx.len(), lz.as_ptr(), lz.len(), right, rx.as_ptr(), rx.len(), rz.as_ptr(), rz.len(),
                ox.as_mut_ptr(), ox.len(), oz.as_mut_ptr(), oz.len(),
            )
        }
    }
    /// The outputs of building: rows, vacuum and work room.
    pub fn from_flatpack(
        leaves: bool, n: usize, q: usize, entries: &[usize], filled: &[bool], o: &mut Set, v: &mut [u64], room: &mut [u64],
    ) -> Answer {
        let f = if leaves { ropethistle_from_flatpack } else { ropethistle_from_flatpack_naive };
        unsafe {
            f(
                n, q, entries.as_ptr(), entries.len(), filled.as_ptr().cast(), filled.len(), o.x.as_mut_ptr(), o.x.len(), o.z.as_mut_ptr(), o.z.len(),
                o.p.as_mut_ptr(), o.p.len(), v.as_mut_ptr(), v.len(), room.as_mut_ptr(), room.len(),
            )
        }
    }
    pub fn from_name(tree: usize, n: usize, q: usize, o: &mut Set, v: &mut [u64], room: &mut [u64]) -> Answer {
        unsafe {
            ropethistle_from_name(
                tree, n, q, o.x.as_mut_ptr(), o.x.len(), o.z.as_mut_ptr(), o.z.len(), o.p.as_mut_ptr(), o.p.len(), v.as_mut_ptr(), v.len(),
                room.as_mut_ptr(), room.len(),
            )
        }
    }
    pub fn maxnto(n: usize, x: &mut [u64], z: &mut [u64], p: &mut [u8]) -> Answer {
        unsafe { ropethistle_maxnto(n, x.as_mut_ptr(), x.len(), z.as_mut_ptr(), z.len(), p.as_mut_ptr(), p.len()) }
    }
}

pub fn words_for(columns: usize) -> usize {
    columns.div_ceil(64)
}
pub fn bit(ws: &[u64], j: usize) -> bool {
    ws[j / 64] >> (j % 64) & 1 == 1
}
pub fn flip(ws: &mut [u64], j: usize) {
    ws[j / 64] ^= 1 << (j % 64);
}
pub fn bools(ws: &[u64], len: usize) -> Array1<bool> {
    (0..len).map(|j| bit(ws, j)).collect()
}
pub fn packed<'a>(b: impl IntoIterator<Item = &'a bool>, len: usize) -> Vec<u64> {
    let mut ws = vec![0; words_for(len)];
    for (j, &v) in b.into_iter().enumerate() {
        if v {
            flip(&mut ws, j);
        }
    }
    ws
}

/// A row set as the library takes it.
#[derive(Clone, Debug, PartialEq)]
pub struct Set {
    pub n: usize,
    pub q: usize,
    pub x: Vec<u64>,
    pub z: Vec<u64>,
    pub p: Vec<u8>,
}

impl Set {
    pub fn zeros(n: usize, q: usize) -> Set {
        let w = words_for(q);
        Set { n, q, x: vec![0; 2 * n * w], z: vec![0; 2 * n * w], p: vec![0; 2 * n] }
    }
    pub fn w(&self) -> usize {
        words_for(self.q)
    }
    pub fn row_x(&self, k: usize) -> &[u64] {
        &self.x[k * self.w()..(k + 1) * self.w()]
    }
    pub fn row_z(&self, k: usize) -> &[u64] {
        &self.z[k * self.w()..(k + 1) * self.w()]
    }
    /// d is odd at mode i.
    pub fn odd(&self, i: usize) -> bool {
        (self.p[2 * i + 1] + 4 - self.p[2 * i] + 3) % 2 == 1
    }
    pub fn some_odd(&self) -> bool {
        (0..self.n).any(|i| self.odd(i))
    }
    /// Jordan-Wigner, by its formula.
    pub fn jordan_wigner(n: usize) -> Set {
        let mut s = Set::zeros(n, n);
        let w = s.w();
        for i in 0..n {
            for k in [2 * i, 2 * i + 1] {
                flip(&mut s.x[k * w..], i);
                for j in 0..i {
                    flip(&mut s.z[k * w..], j);
                }
            }
            flip(&mut s.z[(2 * i + 1) * w..], i);
            s.p[2 * i + 1] = 1;
        }
        s
    }
    pub fn from_rust(m: &SymplecticMatrix) -> Set {
        let mut s = Set::zeros(m.n_rows / 2, m.n_qubits);
        let w = s.w();
        for r in 0..m.n_rows {
            s.p[r] = m.ipowers[r];
            s.x[r * w..(r + 1) * w].copy_from_slice(&packed(&m.x_block.get_term(r).to_bool_array(), m.n_qubits));
            s.z[r * w..(r + 1) * w].copy_from_slice(&packed(&m.z_block.get_term(r).to_bool_array(), m.n_qubits));
        }
        s
    }
    pub fn to_rust(&self) -> SymplecticMatrix {
        let shape = (2 * self.n, self.q);
        SymplecticMatrix::from_arrays_with_ipowers(
            Array2::from_shape_fn(shape, |(r, c)| bit(self.row_x(r), c)),
            Array2::from_shape_fn(shape, |(r, c)| bit(self.row_z(r), c)),
            self.p.iter().copied().collect(),
        )
    }
    /// The record, with no check.
    pub fn raw(&self, v: &[u64]) -> MajoranaEncoding {
        MajoranaEncoding { n_modes: self.n, n_qubits: self.q, operators: self.to_rust(), vacuum_state: state(v, self.q) }
    }
}

pub fn state(ws: &[u64], q: usize) -> ZBasisState {
    ZBasisState::new(bools(ws, q), Complex64::ONE)
}

/// A flatpack as the Rust has it.
pub type Flat = ferrmion_core::encode::ternarytree::TTFlatpack;

/// A flatpack as the library takes it; an empty slot's number is `blank`.
pub fn lent_flat(f: &Flat, blank: usize) -> (Vec<usize>, Vec<bool>) {
    let mut entries = vec![];
    let mut filled = vec![];
    for (q, (x, y, z)) in f {
        entries.push(*q);
        for c in [x, y, z] {
            entries.push(c.unwrap_or(blank));
            filled.push(c.is_some());
        }
    }
    (entries, filled)
}

pub const NAMED: [fn(usize) -> ferrmion_core::encode::ternarytree::TernaryTree; 4] = {
    use ferrmion_core::encode::ternarytree::TernaryTree as T;
    [T::naive_jordan_wigner, T::naive_parity, T::naive_bravyi_kitaev, T::naive_jkmn]
};

/// Random numbers (splitmix64).
pub struct Random(pub u64);

impl Random {
    pub fn word(&mut self) -> u64 {
        self.0 = self.0.wrapping_add(0x9e37_79b9_7f4a_7c15);
        let mut z = self.0;
        z = (z ^ (z >> 30)).wrapping_mul(0xbf58_476d_1ce4_e5b9);
        z = (z ^ (z >> 27)).wrapping_mul(0x94d0_49bb_1331_11eb);
        z ^ (z >> 31)
    }
    pub fn below(&mut self, n: usize) -> usize {
        (self.word() % n as u64) as usize
    }
    /// A string of `len` bits.
    pub fn bits(&mut self, len: usize) -> Vec<u64> {
        let mut v: Vec<u64> = (0..words_for(len)).map(|_| self.word()).collect();
        if len % 64 != 0 {
            *v.last_mut().unwrap() &= (1 << (len % 64)) - 1;
        }
        v
    }
    pub fn permutation(&mut self, n: usize) -> Vec<usize> {
        let mut m: Vec<usize> = (0..n).collect();
        for i in (1..n).rev() {
            m.swap(i, self.below(i + 1));
        }
        m
    }
}

/// Whether nodes name each other round a cycle, on which the Rust may walk without end. Entries of one qubit are one node.
pub fn cyclic(f: &Flat) -> bool {
    let node: HashMap<usize, usize> = f.iter().enumerate().map(|(i, e)| (e.0, i)).collect();
    let mut under = vec![vec![]; f.len()];
    for (q, (x, y, z)) in f {
        for c in [x, y, z].into_iter().flatten() {
            match node.get(c) {
                Some(&k) if k != node[q] => under[node[q]].push(k),
                _ => (),
            }
        }
    }
    // nodes with nothing under them are taken away until none is left
    loop {
        let gone: Vec<usize> = (0..f.len()).filter(|&i| under[i].is_empty()).collect();
        let mut changed = false;
        for u in under.iter_mut() {
            if u.iter().any(|k| gone.contains(k)) {
                u.retain(|k| !gone.contains(k));
                changed = true;
            }
        }
        if !changed {
            return under.iter().any(|u| !u.is_empty());
        }
    }
}

/// A tree of n nodes on n of q qubits, naive: each node under a random free slot of one before it; other slots empty or, to be ignored, numbers of no node.
pub fn random_tree(r: &mut Random, n: usize, q: usize) -> Flat {
    let qubits = r.permutation(q);
    let mut f: Flat = (0..n).map(|i| (qubits[i], (None, None, None))).collect();
    let chain = r.below(3);
    for i in 1..n {
        loop {
            let up = if chain == 0 { i - 1 - r.below(i.min(2)) } else { r.below(i) };
            let slots = &mut f[up].1;
            let slot = [&mut slots.0, &mut slots.1, &mut slots.2].into_iter().nth(r.below(3)).unwrap();
            if slot.is_none() {
                *slot = Some(qubits[i]);
                break;
            }
        }
    }
    let order = r.permutation(n);
    order.into_iter().map(|i| f[i]).collect()
}

/// The same tree with the leaves that a naive one has, its modes in random order.
pub fn with_leaves(r: &mut Random, f: &Flat) -> Flat {
    let mut g = TernaryTree::from_flatpack_naive(f).unwrap().to_flatpack();
    let base = f.iter().map(|e| e.0).max().unwrap() + 1;
    let modes = r.permutation(f.len());
    for (_, (x, y, z)) in g.iter_mut() {
        for c in [x, y, z] {
            if let Some(k) = c.filter(|&k| k >= base) {
                *c = Some(base + 2 * modes[(k - base) / 2] + (k - base) % 2);
            }
        }
    }
    g
}

/// One fault in a flatpack.
pub fn damage_tree(r: &mut Random, f: &mut Flat, q: usize) {
    let i = r.below(f.len());
    let top = q + 2 * f.len() + 2;
    let any = match r.below(8) {
        0 => None,
        1 => Some(r.below(2000)),
        2 => Some(r.word() as usize),
        _ => Some(r.below(top)),
    };
    match r.below(8) {
        0 => f[i].0 = r.below(q + 1),
        1 => {
            let j = r.below(f.len());
            f.swap(i, j);
            let x = f[i].1 .0;
            f[i].1 .0 = f[j].1 .0;
            f[j].1 .0 = x;
        }
        2 | 3 => f[i].1 .0 = any,
        4 | 5 => f[i].1 .1 = any,
        _ => f[i].1 .2 = any,
    }
}

/// The MaxNTO rows, by the Rust.
pub fn maxnto_rows(n: usize) -> Set {
    let (p, m) = maxnto_symplectic_matrix(n).unwrap();
    let mut s = Set::zeros(n, n);
    let w = s.w();
    for k in 0..2 * n {
        s.p[k] = p[k];
        for j in 0..n {
            if m[[k, j]] {
                flip(&mut s.x[k * w..], j);
            }
            if m[[k, n + j]] {
                flip(&mut s.z[k * w..], j);
            }
        }
    }
    s
}

/// Row sets that the Rust accepts: its named trees up to 128 modes, MaxNTO's rows for even n, and Jordan-Wigner by its formula at any size.
pub fn good(r: &mut Random, n: usize) -> Set {
    match r.below(6) {
        k @ 0..4 if n <= 128 => Set::from_rust(&NAMED[k](n).build_encoding(n).unwrap().operators),
        4 if n % 2 == 0 => maxnto_rows(n),
        _ => Set::jordan_wigner(n),
    }
}

/// Columns added to each other as by CNOT, on all rows, which keeps rows anticommuting and X parts paired; phases of random modes turned, which moves the vacuum.
pub fn scramble(r: &mut Random, s: &mut Set) {
    let w = s.w();
    if s.q > 1 {
        for _ in 0..r.below(2 * s.q + 1) {
            let a = r.below(s.q);
            let b = (a + 1 + r.below(s.q - 1)) % s.q;
            for k in 0..2 * s.n {
                let (xa, zb) = (bit(s.row_x(k), a), bit(s.row_z(k), b));
                if xa {
                    flip(&mut s.x[k * w..], b);
                }
                if zb {
                    flip(&mut s.z[k * w..], a);
                }
            }
        }
    }
    for _ in 0..r.below(s.n + 1) {
        let i = r.below(s.n);
        match r.below(3) {
            0 => s.p[2 * i] = (s.p[2 * i] + 2) % 4,
            1 => s.p[2 * i + 1] = (s.p[2 * i + 1] + 2) % 4,
            _ => {
                s.p[2 * i] = (s.p[2 * i] + 1) % 4;
                s.p[2 * i + 1] = (s.p[2 * i + 1] + 1) % 4;
            }
        }
    }
}

/// More columns than modes, in random places.
pub fn widen(r: &mut Random, s: &Set, q: usize) -> Set {
    let mut t = Set::zeros(s.n, q);
    t.p = s.p.clone();
    let to = r.permutation(q);
    let w = t.w();
    for k in 0..2 * s.n {
        for j in 0..s.q {
            if bit(s.row_x(k), j) {
                flip(&mut t.x[k * w..], to[j]);
            }
            if bit(s.row_z(k), j) {
                flip(&mut t.z[k * w..], to[j]);
            }
        }
    }
    t
}

/// One fault in a row set.
pub fn damage(r: &mut Random, s: &mut Set) {
    let (w, k, j) = (s.w(), r.below(2 * s.n), r.below(s.q));
    let l = r.below(2 * s.n);
    match r.below(6) {
        0 => flip(&mut s.x[k * w..], j),
        1 => flip(&mut s.z[k * w..], j),
        2 => s.p[k] = (s.p[k] + 1) % 4,
        3 => s.p[k] = (s.p[k] + 2) % 4,
        4 => {
            let (x, z) = (s.row_x(k).to_vec(), s.row_z(k).to_vec());
            s.x[l * w..(l + 1) * w].copy_from_slice(&x);
            s.z[l * w..(l + 1) * w].copy_from_slice(&z);
            s.p[l] = s.p[k];
        }
        _ => {
            flip(&mut s.x[(k / 2 * 2) * w..], j);
            flip(&mut s.x[(k / 2 * 2 + 1) * w..], j);
        }
    }
}

/// Rows of any bits and phases.
pub fn raw(r: &mut Random, n: usize, q: usize) -> Set {
    let mut s = Set::zeros(n, q);
    let paired = r.below(4) > 0;
    for k in 0..2 * n {
        let (x, z) = (r.bits(q), r.bits(q));
        let w = s.w();
        let x = if paired && k % 2 == 1 { s.row_x(k - 1).to_vec() } else { x };
        s.x[k * w..(k + 1) * w].copy_from_slice(&x);
        s.z[k * w..(k + 1) * w].copy_from_slice(&z);
        s.p[k] = if paired && k % 2 == 1 { (s.p[k - 1] + 1 + 2 * r.below(2) as u8) % 4 } else { r.below(4) as u8 };
    }
    if r.below(8) == 0 {
        s.p[r.below(2 * n)] = r.below(4) as u8;
    }
    s
}

/// The vacuum that solves the rule, by the Rust; or any bits.
pub fn vacuum(r: &mut Random, s: &Set) -> Vec<u64> {
    if r.below(8) > 0 {
        if let Ok(v) = MajoranaEncoding::determine_vacuum_state(&s.to_rust()) {
            return packed(&v.state_bools(), s.q);
        }
    }
    r.bits(s.q)
}

/// Whether two rows commute, by the Rust's own counts.
pub fn commute(m: &SymplecticMatrix, i: usize, j: usize) -> bool {
    let k = m.x_block.get_term(i).and_count_ones(&m.z_block.get_term(j)) + m.z_block.get_term(i).and_count_ones(&m.x_block.get_term(j));
    k % 2 == 0
}

/// The first pair of rows that commute.
pub fn commuting(e: &MajoranaEncoding) -> (usize, usize) {
    let m = &e.operators;
    for i in 0..m.n_rows {
        for j in i + 1..m.n_rows {
            if commute(m, i, j) {
                return (i, j);
            }
        }
    }
    (0, 0)
}

/// The product of rows of these numbers, by the stand-in.
pub fn times(m: &SymplecticMatrix, numbers: &[usize]) -> SymplecticOperator {
    numbers.iter().fold(SymplecticOperator::identity(m.n_qubits), |a, &k| a * m.view_row(k))
}
