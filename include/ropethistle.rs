// Declarations of the calls for Rust programs: `include!` this file, and link target/staticlib/libexports.a. include/ropethistle.h says what each call takes,
// hands back and leaves. A slice is a pointer and then a length.

#[repr(C)]
#[derive(Clone, Copy, Debug, PartialEq, Eq)]
pub struct Answer {
    pub number: usize,
    pub first: usize,
    pub second: usize,
}

#[repr(C)]
#[derive(Clone, Copy, Debug, PartialEq, Eq)]
pub struct Phase {
    pub number: usize,
    pub phase: usize,
}

#[repr(C)]
#[derive(Clone, Copy, Debug, PartialEq, Eq)]
pub struct Multiplied {
    pub number: usize,
    pub phase: usize,
    pub commute: usize,
}

#[repr(C)]
#[derive(Clone, Copy, Debug, PartialEq)]
pub struct Product {
    pub number: usize,
    pub phase: usize,
    pub re: f64,
    pub im: f64,
}

#[repr(C)]
#[derive(Clone, Copy, Debug, PartialEq)]
pub struct RealProduct {
    pub number: usize,
    pub phase: usize,
    pub imaginary: usize,
    pub value: f64,
}

#[link(name = "exports", kind = "static")]
extern "C" {
    pub fn ropethistle_check_vacuum(
        modes: usize, qubits: usize, x: *const u64, x_len: usize, z: *const u64, z_len: usize, phases: *const u8, phases_len: usize,
        vacuum: *const u64, vacuum_len: usize,
    ) -> Answer;
    pub fn ropethistle_check_rows(
        modes: usize, qubits: usize, x: *const u64, x_len: usize, z: *const u64, z_len: usize, phases: *const u8, phases_len: usize,
        vacuum: *const u64, vacuum_len: usize, room: *mut u64, room_len: usize,
    ) -> Answer;
    pub fn ropethistle_determine_vacuum_state(
        modes: usize, qubits: usize, x: *const u64, x_len: usize, z: *const u64, z_len: usize, phases: *const u8, phases_len: usize,
        vacuum: *mut u64, vacuum_len: usize, room: *mut u64, room_len: usize,
    ) -> Answer;
    pub fn ropethistle_new(
        modes: usize, qubits: usize, x: *const u64, x_len: usize, z: *const u64, z_len: usize, phases: *const u8, phases_len: usize,
        vacuum: *mut u64, vacuum_len: usize, room: *mut u64, room_len: usize,
    ) -> Answer;
    pub fn ropethistle_apply_mode_enumeration(
        modes: usize, qubits: usize, x: *const u64, x_len: usize, z: *const u64, z_len: usize, phases: *const u8, phases_len: usize,
        vacuum: *const u64, vacuum_len: usize, map: *const usize, map_len: usize, ox: *mut u64, ox_len: usize, oz: *mut u64, oz_len: usize,
        ophases: *mut u8, ophases_len: usize, ovacuum: *mut u64, ovacuum_len: usize, room: *mut u64, room_len: usize,
    ) -> Answer;
    pub fn ropethistle_try_encode(
        modes: usize, qubits: usize, x: *const u64, x_len: usize, z: *const u64, z_len: usize, phases: *const u8, phases_len: usize,
        vacuum: *const u64, vacuum_len: usize, list: *const u64, list_len: usize, out: *mut u64, out_len: usize,
    ) -> Phase;
    pub fn ropethistle_decode_zbasis_state(
        modes: usize, qubits: usize, x: *const u64, x_len: usize, z: *const u64, z_len: usize, phases: *const u8, phases_len: usize,
        vacuum: *const u64, vacuum_len: usize, string: *const u64, string_len: usize, out: *mut u64, out_len: usize,
    ) -> Answer;
    pub fn ropethistle_product(
        modes: usize, qubits: usize, x: *const u64, x_len: usize, z: *const u64, z_len: usize, phases: *const u8, phases_len: usize,
        numbers: *const usize, numbers_len: usize, re: f64, im: f64, ox: *mut u64, ox_len: usize, oz: *mut u64, oz_len: usize,
    ) -> Product;
    pub fn ropethistle_product_real(
        modes: usize, qubits: usize, x: *const u64, x_len: usize, z: *const u64, z_len: usize, phases: *const u8, phases_len: usize,
        numbers: *const usize, numbers_len: usize, c: f64, ox: *mut u64, ox_len: usize, oz: *mut u64, oz_len: usize,
    ) -> RealProduct;
    pub fn ropethistle_multiply(
        columns: usize, left: u8, lx: *const u64, lx_len: usize, lz: *const u64, lz_len: usize, right: u8, rx: *const u64, rx_len: usize,
        rz: *const u64, rz_len: usize, ox: *mut u64, ox_len: usize, oz: *mut u64, oz_len: usize,
    ) -> Multiplied;
    pub fn ropethistle_from_flatpack(
        modes: usize, qubits: usize, entries: *const usize, entries_len: usize, filled: *const u8, filled_len: usize, x: *mut u64, x_len: usize,
        z: *mut u64, z_len: usize, phases: *mut u8, phases_len: usize, vacuum: *mut u64, vacuum_len: usize, room: *mut u64, room_len: usize,
    ) -> Answer;
    pub fn ropethistle_from_flatpack_naive(
        modes: usize, qubits: usize, entries: *const usize, entries_len: usize, filled: *const u8, filled_len: usize, x: *mut u64, x_len: usize,
        z: *mut u64, z_len: usize, phases: *mut u8, phases_len: usize, vacuum: *mut u64, vacuum_len: usize, room: *mut u64, room_len: usize,
    ) -> Answer;
    pub fn ropethistle_from_name(
        tree: usize, modes: usize, qubits: usize, x: *mut u64, x_len: usize, z: *mut u64, z_len: usize, phases: *mut u8, phases_len: usize,
        vacuum: *mut u64, vacuum_len: usize, room: *mut u64, room_len: usize,
    ) -> Answer;
    pub fn ropethistle_maxnto(modes: usize, x: *mut u64, x_len: usize, z: *mut u64, z_len: usize, phases: *mut u8, phases_len: usize) -> Answer;
}
