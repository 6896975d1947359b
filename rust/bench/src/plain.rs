//! The yardsticks: the parity of a whole matrix, columns and then rows, each output byte in turn across its group; and ISA-L.
use std::ffi::{c_int, c_void};

/// L, D and P known only at run time, as a card has them.
#[inline(never)]
pub fn parity_at_run_time(payloads: &[u8], l: usize, d: usize, p: usize, out: &mut [[u8; 1316]]) {
    for c in 0..l {
        for j in 0..p {
            let mut sum = 0;
            for r in 0..d {
                sum ^= payloads[(r * l + c) * p + j];
            }
            out[c][j] = sum;
        }
    }
    for r in 0..d {
        for j in 0..p {
            let mut sum = 0;
            for c in 0..l {
                sum ^= payloads[(r * l + c) * p + j];
            }
            out[l + r][j] = sum;
        }
    }
}

/// The same with constants, which the compiler turns into vector code.
#[inline(never)]
pub fn parity_of_constants<const L: usize, const D: usize, const P: usize>(payloads: &[u8], out: &mut [[u8; P]]) {
    let payloads = &payloads[..L * D * P];
    for c in 0..L {
        for j in 0..P {
            let mut sum = 0;
            for r in 0..D {
                sum ^= payloads[(r * L + c) * P + j];
            }
            out[c][j] = sum;
        }
    }
    for r in 0..D {
        for j in 0..P {
            let mut sum = 0;
            for c in 0..L {
                sum ^= payloads[(r * L + c) * P + j];
            }
            out[L + r][j] = sum;
        }
    }
}

extern "C" {
    fn xor_gen(vects: c_int, len: c_int, array: *mut *mut c_void) -> c_int;
}

/// Room for a payload where ISA-L asks for it: at an address that is a multiple of 32.
#[derive(Clone, Copy)]
#[repr(align(32))]
pub struct Aligned(pub [u8; 1344]);

/// ISA-L's xor_gen, one call a group: it reads the payloads where they lie and writes the parity payload.
pub fn parity_by_isal(payloads: &[Aligned], l: usize, d: usize, p: usize, out: &mut [Aligned]) {
    let one = |start: usize, offset: usize, na: usize, to: &mut Aligned| {
        let mut parts: Vec<*mut c_void> = (0..na).map(|j| payloads[start + j * offset].0[..p].as_ptr() as *mut c_void).collect();
        parts.push(to.0[..p].as_mut_ptr().cast());
        // SAFETY: na sources and an output of p bytes each, aligned; xor_gen writes to the last only.
        let failed = unsafe { xor_gen(parts.len() as c_int, p as c_int, parts.as_mut_ptr()) };
        assert_eq!(failed, 0);
    };
    for c in 0..l {
        one(c, l, d, &mut out[c]);
    }
    for r in 0..d {
        one(r * l, 1, l, &mut out[l + r]);
    }
}
