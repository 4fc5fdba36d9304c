// ---- Appended for the oracle: public wrappers of private functions. ----

/// The published 64-bit product of machines without PCLMULQDQ.
pub fn oracle_clmul64_portable(a: u64, b: u64) -> u128 {
    clmul64_portable(a, b)
}

/// The published `mul` as it runs on a machine without PCLMULQDQ: `clmul128`'s
/// three half products, each by `clmul64_portable`, then `reduce256`.
pub fn oracle_mul_portable(a: Gf128, b: Gf128) -> Gf128 {
    let lo = clmul64_portable(lo64(a), lo64(b));
    let hi = clmul64_portable(hi64(a), hi64(b));
    let mid = clmul64_portable(lo64(a) ^ hi64(a), lo64(b) ^ hi64(b)) ^ lo ^ hi;
    reduce256([
        lo as u64,
        (lo >> 64) as u64 ^ mid as u64,
        (mid >> 64) as u64 ^ hi as u64,
        (hi >> 64) as u64,
    ])
}

/// Whether `mul` runs on PCLMULQDQ here.
pub fn oracle_fast_path_available() -> bool {
    fast_path_available()
}
