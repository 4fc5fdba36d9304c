// ---- Appended for the oracle: public wrappers of private functions. ----

/// `serialize_parts` into a buffer of its own.
pub fn oracle_serialize_parts(parts: &[&[u8]]) -> Vec<u8> {
    let mut buf = Vec::new();
    serialize_parts(parts, &mut buf);
    buf
}

/// `blake3_one_shot`.
pub fn oracle_blake3(bytes: &[u8]) -> [u8; DIGEST] {
    blake3_one_shot(bytes)
}

/// `BatchedLeafHashPrefix::hash_group`, the prefix made for this one call.
pub fn oracle_hash_group(
    domain: &str,
    n_values: usize,
    width: usize,
    group: usize,
    values: &[magnetar_field::Gf128],
) -> [u8; DIGEST] {
    BatchedLeafHashPrefix::new(domain, n_values, width).hash_group(group, values)
}

/// `BatchedLeafHashPrefix::hash_group` over every group, the prefix made once.
pub fn oracle_hash_groups(
    domain: &str,
    values: &[magnetar_field::Gf128],
    width: usize,
) -> Vec<[u8; DIGEST]> {
    let prefix = BatchedLeafHashPrefix::new(domain, values.len(), width);
    let hash = |(g, group): (usize, &[magnetar_field::Gf128])| prefix.hash_group(g, group);
    values.chunks_exact(width).enumerate().map(hash).collect()
}

/// `NodeHashPrefix::hash`, the prefix made for this one call.
pub fn oracle_hash_node(
    domain: &str,
    level: u64,
    left: &[u8; DIGEST],
    right: &[u8; DIGEST],
) -> [u8; DIGEST] {
    NodeHashPrefix::new(domain, level).hash(left, right)
}

/// `NodeHashPrefix::hash` over a whole level, the prefix made once.
pub fn oracle_hash_nodes(domain: &str, level: u64, children: &[[u8; DIGEST]]) -> Vec<[u8; DIGEST]> {
    let prefix = NodeHashPrefix::new(domain, level);
    let hash = |pair: &[[u8; DIGEST]]| prefix.hash(&pair[0], &pair[1]);
    children.chunks_exact(2).map(hash).collect()
}

impl MerkleTree {
    /// All levels, leaves first.
    pub fn oracle_levels(&self) -> &[Vec<[u8; DIGEST]>] {
        &self.levels
    }

    /// A tree with these digests, whatever they are: a tree that a caller lends.
    pub fn oracle_lent(
        domain: &str,
        levels: Vec<Vec<[u8; DIGEST]>>,
        n_values: usize,
        width: usize,
    ) -> Self {
        MerkleTree {
            levels,
            domain: domain.as_bytes().to_vec(),
            n_leaves: n_values,
            width,
        }
    }
}
