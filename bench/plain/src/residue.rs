//! Residues modulo the prime 65479, reduced after every operation.

pub const PRIME: u16 = 65479;

const P: u32 = PRIME as u32;

pub fn sum(a: u16, b: u16) -> u16 {
    ((a as u32 + b as u32) % P) as u16
}

pub fn difference(a: u16, b: u16) -> u16 {
    ((a as u32 + P - b as u32) % P) as u16
}

pub fn product(a: u16, b: u16) -> u16 {
    (a as u32 * b as u32 % P) as u16
}

/// The inverse of zero is zero.
pub fn inverse(a: u16) -> u16 {
    let mut rest = a as u32;
    if rest == 0 {
        return 0;
    }
    let mut factor = 1;
    while rest > 1 {
        factor = factor * (P - P / rest) % P;
        rest = P % rest;
    }
    factor as u16
}
