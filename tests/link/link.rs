// Links the static library from Rust and makes its calls: good inputs, and short, empty and null slices.
include!("../../include/ropethistle.rs");

use std::ptr::{null, null_mut};

extern "C" {
    fn mmap(at: *mut u8, len: usize, protection: i32, flags: i32, file: i32, offset: i64) -> *mut u8;
    fn mprotect(at: *mut u8, len: usize, protection: i32) -> i32;
}

// Words that end where a page begins that may not be touched: a sanitizer does not see what the library does, and this page does.
fn lent(words: &[u64]) -> &'static mut [u64] {
    let (page, len) = (65536, 8 * words.len());
    let room = len.div_ceil(page) * page;
    unsafe {
        let p = mmap(null_mut(), room + page, 3, 0x22, -1, 0);
        assert_eq!(mprotect(p.add(room), page, 0), 0);
        let s = std::slice::from_raw_parts_mut(p.add(room - len) as *mut u64, words.len());
        s.copy_from_slice(words);
        s
    }
}

// Jordan-Wigner on two modes: XI, YI, ZX, ZY, phases 0, 1, 0, 1
const X: [u64; 4] = [1, 1, 2, 2];
const Z: [u64; 4] = [0, 1, 1, 3];
const P: [u8; 4] = [0, 1, 0, 1];

fn check(x: &[u64], v: &[u64], room: &mut [u64]) -> Answer {
    let (x, v) = (lent(x), lent(v));
    unsafe {
        ropethistle_check_rows(
            2, 2, x.as_ptr(), x.len(), Z.as_ptr(), 4, P.as_ptr(), 4, v.as_ptr(), v.len(), room.as_mut_ptr(), room.len(),
        )
    }
}

fn encode(list: &[u64], out: &mut [u64]) -> Phase {
    let (v, list) = (lent(&[0]), lent(list));
    unsafe {
        ropethistle_try_encode(
            2, 2, X.as_ptr(), 4, Z.as_ptr(), 4, P.as_ptr(), 4, v.as_ptr(), 1, list.as_ptr(), list.len(), out.as_mut_ptr(), out.len(),
        )
    }
}

fn decode(string: &[u64], out: &mut [u64]) -> Answer {
    let (v, string) = (lent(&[0]), lent(string));
    unsafe {
        ropethistle_decode_zbasis_state(
            2, 2, X.as_ptr(), 4, Z.as_ptr(), 4, P.as_ptr(), 4, v.as_ptr(), 1, string.as_ptr(), string.len(), out.as_mut_ptr(), out.len(),
        )
    }
}

fn multiply(numbers: &[usize], c: f64) -> (RealProduct, Product, u64, u64) {
    let (mut ox, mut oz) = ([5u64], [5u64]);
    let r = unsafe {
        ropethistle_product_real(
            2, 2, X.as_ptr(), 4, Z.as_ptr(), 4, P.as_ptr(), 4, numbers.as_ptr(), numbers.len(), c, ox.as_mut_ptr(), 1, oz.as_mut_ptr(), 1,
        )
    };
    let p = unsafe {
        ropethistle_product(
            2, 2, X.as_ptr(), 4, Z.as_ptr(), 4, P.as_ptr(), 4, numbers.as_ptr(), numbers.len(), c, 0.0, ox.as_mut_ptr(), 1, oz.as_mut_ptr(), 1,
        )
    };
    (r, p, ox[0], oz[0])
}

// Two rows of two columns, each with its phase, X part and Z part, and what is left in the product's parts
fn pair(left: (u8, u64, u64), right: (u8, u64, u64)) -> (Multiplied, u64, u64) {
    let (lx, lz, rx, rz, ox, oz) = (lent(&[left.1]), lent(&[left.2]), lent(&[right.1]), lent(&[right.2]), lent(&[5]), lent(&[5]));
    let m = unsafe {
        ropethistle_multiply(
            2, left.0, lx.as_ptr(), 1, lz.as_ptr(), 1, right.0, rx.as_ptr(), 1, rz.as_ptr(), 1, ox.as_mut_ptr(), 1, oz.as_mut_ptr(), 1,
        )
    };
    (m, ox[0], oz[0])
}

fn main() {
    let done = Answer { number: 0, first: 0, second: 0 };
    let mut room = lent(&[7; 9]);
    assert_eq!(check(&X, &[0], &mut room), done);
    assert_eq!(room, [0, 0, 0, 0, 0, 0, 0, 0, 7]);
    assert_eq!(check(&[1, 1, 1, 1], &[0], &mut room), Answer { number: 10, first: 1, second: 2 });
    for list in 0..4 {
        let (mut out, mut back) = (lent(&[7, 8]), lent(&[7, 8]));
        assert_eq!(encode(&[list], &mut out), Phase { number: 0, phase: 0 });
        assert_eq!(out, [list, 8]);
        assert_eq!(decode(&out[..1], &mut back), done);
        assert_eq!(back, [list, 8]);
    }
    assert_eq!(multiply(&[0, 1], 2.0), (
        RealProduct { number: 0, phase: 1, imaginary: 1, value: 2.0 }, Product { number: 0, phase: 1, re: 0.0, im: 2.0 }, 0, 1,
    ));
    assert_eq!(multiply(&[4], 2.0).0, RealProduct { number: 17, phase: 0, imaginary: 0, value: 0.0 });
    assert_eq!(multiply(&[0; 513], 2.0).0.number, 1);
    assert_eq!(multiply(&[0; 512], 2.0), (
        RealProduct { number: 0, phase: 0, imaginary: 0, value: 2.0 }, Product { number: 0, phase: 0, re: 2.0, im: 0.0 }, 0, 0,
    ));

    // XI with YI, in both orders; with IX; YI with itself; XX with ZZ; and XI of phase 4 with XI
    let told = |phase, commute| Multiplied { number: 0, phase, commute };
    assert_eq!(pair((0, 1, 0), (1, 1, 1)), (told(1, 0), 0, 1));
    assert_eq!(pair((1, 1, 1), (0, 1, 0)), (told(3, 0), 0, 1));
    assert_eq!(pair((0, 1, 0), (0, 2, 0)), (told(0, 1), 3, 0));
    assert_eq!(pair((1, 1, 1), (1, 1, 1)), (told(0, 1), 0, 0));
    assert_eq!(pair((0, 3, 0), (0, 0, 3)), (told(0, 1), 3, 3));
    assert_eq!(pair((4, 1, 0), (0, 1, 0)), (Multiplied { number: 17, phase: 0, commute: 0 }, 5, 5));

    // a named tree, and a number that names none
    let (x, z, v, room) = (lent(&[7; 4]), lent(&[7; 4]), lent(&[7]), lent(&[7; 8]));
    let mut p = [7u8; 4];
    let mut named = |tree: usize| unsafe {
        ropethistle_from_name(
            tree, 2, 2, x.as_mut_ptr(), 4, z.as_mut_ptr(), 4, p.as_mut_ptr(), 4, v.as_mut_ptr(), 1, room.as_mut_ptr(), 8,
        )
    };
    assert_eq!(named(4).number, 1);
    assert_eq!(named(0), done);
    assert_eq!((&x[..], &z[..], p, v[0]), (&X[..], &Z[..], P, 0));
    // a flatpack: any byte but 0 says that a slot is filled
    let entries = [0usize, 2, 3, 1, 1, 4, 5, 99];
    for bytes in [[1u8, 1, 1, 1, 1, 0], [2, 2, 2, 2, 2, 0], [128, 255, 2, 1, 128, 0], [255, 255, 255, 255, 255, 0]] {
        for call in [ropethistle_from_flatpack, ropethistle_from_flatpack_naive] {
            let (x, z, v) = (lent(&[7; 4]), lent(&[7; 4]), lent(&[7]));
            let mut p = [7u8; 4];
            let a = unsafe {
                call(
                    2, 2, entries.as_ptr(), 8, bytes.as_ptr(), 6, x.as_mut_ptr(), 4, z.as_mut_ptr(), 4, p.as_mut_ptr(), 4, v.as_mut_ptr(), 1,
                    room.as_mut_ptr(), 8,
                )
            };
            assert_eq!((a, &x[..], &z[..], p, v[0]), (done, &X[..], &Z[..], P, 0));
        }
    }
    let a = unsafe { ropethistle_new(2, 2, X.as_ptr(), 4, Z.as_ptr(), 4, P.as_ptr(), 4, v.as_mut_ptr(), 1, room.as_mut_ptr(), 8) };
    assert_eq!(a, done);

    // one short, and empty: nothing is written
    let mut room = lent(&[7; 7]);
    assert_eq!(check(&X, &[0], &mut room).number, 2);
    assert_eq!(room, [7; 7]);
    assert_eq!(check(&X[..3], &[0], &mut [7; 8]).number, 2);
    assert_eq!(check(&[], &[], &mut []).number, 2);
    let mut out = lent(&[7]);
    assert_eq!(encode(&[], &mut out).number, 2);
    assert_eq!(encode(&[4], &mut out).number, 17);
    assert_eq!(out, [7]);
    assert_eq!(encode(&[3], &mut []).number, 2);
    // null
    let a = unsafe { ropethistle_check_rows(2, 2, null(), 0, null(), 0, null(), 0, null(), 0, null_mut(), 0) };
    assert_eq!(a.number, 2);
    let a = unsafe { ropethistle_check_vacuum(0, 2, null(), 0, null(), 0, null(), 0, null(), 0) };
    assert_eq!(a.number, 1);
    let p = unsafe { ropethistle_multiply(1, 0, null(), 0, null(), 0, 0, null(), 0, null(), 0, null_mut(), 0, null_mut(), 0) };
    assert_eq!(p, Multiplied { number: 2, phase: 0, commute: 0 });
    let a = unsafe { ropethistle_maxnto(2, null_mut(), 0, null_mut(), 0, null_mut(), 0) };
    assert_eq!(a.number, 2);
    println!("link.rs: all tests passed");
}
