// ---- Appended for the oracle: public wrappers of private functions. ----

/// `partial_evals`.
pub fn oracle_partial_evals(eq_z: &[Gf128], packed: &[Gf128]) -> Vec<Gf128> {
    partial_evals(eq_z, packed)
}

/// `build_query`.
pub fn oracle_build_query(
    main_tree: &MerkleTree,
    trees: &[MerkleTree],
    values: &[Vec<Gf128>],
    pos: usize,
) -> PathQuery {
    build_query(main_tree, trees, values, pos)
}
