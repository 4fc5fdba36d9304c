// ---- Appended for the oracle: public wrappers of private functions. ----

/// `level_domain`.
pub fn oracle_level_domain(base: &str, level: usize) -> String {
    level_domain(base, level)
}
