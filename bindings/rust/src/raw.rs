//! The archive's functions, as include/dequmlo.h declares them. A lent slice is a pointer and a count of elements.

#[repr(C)]
#[derive(Clone, Copy)]
pub struct Word {
    pub lo: u64,
    pub hi: u64,
}

#[repr(C)]
pub struct Sizes {
    pub number: u32,
    pub table: usize,
    pub gammas: usize,
    pub codeword: usize,
    pub tree: usize,
    pub levels: usize,
    pub trees: usize,
    pub half: usize,
    pub roots: usize,
    pub last_level: usize,
    pub last_tree: usize,
    pub query: usize,
    pub tail: usize,
}

#[repr(C)]
pub struct Key {
    pub keyed: u32,
    pub bytes: [u8; 32],
}

#[repr(C)]
pub struct Digested {
    pub number: u32,
    pub bytes: [u8; 32],
}

#[repr(C)]
pub struct DomainLength {
    pub number: u32,
    pub length: usize,
}

#[repr(C)]
pub struct Folded {
    pub number: u32,
    pub n: usize,
}

#[repr(C)]
pub struct Checked {
    pub number: u32,
    pub level: u32,
}

#[repr(C)]
pub struct Compared {
    pub number: u32,
    pub first: usize,
    pub second: usize,
}

#[repr(C)]
pub struct Answered {
    pub number: u32,
    pub word: Word,
}

#[repr(C)]
#[derive(Clone, Copy)]
pub struct Block {
    pub first: u64,
    pub second: u64,
}

#[repr(C)]
pub struct Hashed {
    pub number: u32,
    pub block: Block,
}

#[repr(C)]
pub struct Coefficients {
    pub words: [Word; 128],
}

#[repr(C)]
pub struct Parameters {
    pub k: usize,
    pub queries: usize,
    pub domain: [u8; 24],
    pub length: usize,
}

extern "C" {
    pub fn dequmlo_sizes(widths: u32, n: usize, k: usize) -> Sizes;
    pub fn dequmlo_digest(input: *const u8, input_length: usize) -> Digested;
    pub fn dequmlo_keyed_digest(
        key: *const u8,
        key_length: usize,
        input: *const u8,
        input_length: usize,
    ) -> Digested;
    pub fn dequmlo_derive_key(
        context: *const u8,
        context_length: usize,
        material: *const u8,
        material_length: usize,
    ) -> Digested;
    pub fn dequmlo_commit(
        key: Key,
        widths: u32,
        n: usize,
        k: usize,
        base: *const u8,
        base_length: usize,
        table: *const u64,
        table_length: usize,
        gammas: *mut u64,
        gammas_length: usize,
        codeword: *mut u64,
        codeword_length: usize,
        coordinates: *mut usize,
        coordinates_length: usize,
        tree: *mut u8,
        tree_length: usize,
    ) -> u32;
    pub fn dequmlo_fold(
        n: usize,
        k: usize,
        original: usize,
        var: usize,
        r: Word,
        coordinates: *mut usize,
        coordinates_length: usize,
        codeword: *const u64,
        codeword_length: usize,
        out: *mut u64,
        out_length: usize,
    ) -> Folded;
    pub fn dequmlo_fold_levels(
        key: Key,
        widths: u32,
        n: usize,
        k: usize,
        base: *const u8,
        base_length: usize,
        challenges: *const u64,
        challenges_length: usize,
        levels: *mut u64,
        levels_length: usize,
        half: *mut u64,
        half_length: usize,
        trees: *mut u8,
        trees_length: usize,
        roots: *mut u8,
        roots_length: usize,
    ) -> u32;
    pub fn dequmlo_fold_tree_width(widths: u32, length: usize) -> usize;
    pub fn dequmlo_level_domain_length(
        base: *const u8,
        base_length: usize,
        level: usize,
    ) -> DomainLength;
    pub fn dequmlo_level_domain(
        base: *const u8,
        base_length: usize,
        level: usize,
        out: *mut u8,
        out_length: usize,
    ) -> u32;
    pub fn dequmlo_level_tree(
        key: Key,
        widths: u32,
        n: usize,
        k: usize,
        level: usize,
        base: *const u8,
        base_length: usize,
        values: *const u64,
        values_length: usize,
        tree: *mut u8,
        tree_length: usize,
    ) -> u32;
    pub fn dequmlo_tree(
        key: Key,
        domain: *const u8,
        domain_length: usize,
        count: usize,
        width: usize,
        values: *const u64,
        values_length: usize,
        tree: *mut u8,
        tree_length: usize,
    ) -> u32;
    pub fn dequmlo_gammas(
        n: usize,
        k: usize,
        base: *const u8,
        base_length: usize,
        gammas: *mut u64,
        gammas_length: usize,
    ) -> u32;
    pub fn dequmlo_next_part(
        n: usize,
        k: usize,
        level: usize,
        r: Word,
        first: usize,
        values: *const u64,
        values_length: usize,
        out: *mut u64,
        out_length: usize,
    ) -> u32;
    pub fn dequmlo_level_leaves(
        key: Key,
        widths: u32,
        n: usize,
        k: usize,
        level: usize,
        base: *const u8,
        base_length: usize,
        first: usize,
        values: *const u64,
        values_length: usize,
        out: *mut u8,
        out_length: usize,
    ) -> u32;
    pub fn dequmlo_level_parents(
        key: Key,
        n: usize,
        k: usize,
        level: usize,
        base: *const u8,
        base_length: usize,
        height: usize,
        children: *const u8,
        children_length: usize,
        out: *mut u8,
        out_length: usize,
    ) -> u32;
    pub fn dequmlo_codeword_block(
        n: usize,
        k: usize,
        eps: usize,
        table: *const u64,
        table_length: usize,
        gammas: *const u64,
        gammas_length: usize,
        out: *mut u64,
        out_length: usize,
    ) -> u32;
    pub fn dequmlo_codeword_half(
        n: usize,
        k: usize,
        half: usize,
        table: *const u64,
        table_length: usize,
        gammas: *const u64,
        gammas_length: usize,
        out: *mut u64,
        out_length: usize,
    ) -> u32;
    pub fn dequmlo_fold_part(
        n: usize,
        k: usize,
        var: usize,
        r: Word,
        first: usize,
        codeword: *const u64,
        codeword_length: usize,
        out: *mut u64,
        out_length: usize,
    ) -> u32;
    pub fn dequmlo_tree_leaves(
        key: Key,
        domain: *const u8,
        domain_length: usize,
        count: usize,
        width: usize,
        first: usize,
        values: *const u64,
        values_length: usize,
        out: *mut u8,
        out_length: usize,
    ) -> u32;
    pub fn dequmlo_tree_parents(
        key: Key,
        domain: *const u8,
        domain_length: usize,
        level: usize,
        children: *const u8,
        children_length: usize,
        out: *mut u8,
        out_length: usize,
    ) -> u32;
    pub fn dequmlo_open(
        count: usize,
        width: usize,
        place: usize,
        tree: *const u8,
        tree_length: usize,
        path: *mut u8,
        path_length: usize,
    ) -> u32;
    pub fn dequmlo_root_of_path(
        key: Key,
        domain: *const u8,
        domain_length: usize,
        count: usize,
        width: usize,
        place: usize,
        values: *const u64,
        values_length: usize,
        path: *const u8,
        path_length: usize,
    ) -> Digested;
    pub fn dequmlo_build_query(
        out: *mut u8,
        out_length: usize,
        levels: *const u64,
        levels_length: usize,
        trees: *const u8,
        trees_length: usize,
        widths: u32,
        n: usize,
        k: usize,
        position: usize,
    ) -> u32;
    pub fn dequmlo_check_query(
        key: Key,
        base: *const u8,
        base_length: usize,
        widths: u32,
        n: usize,
        k: usize,
        position: usize,
        challenges: *const u64,
        challenges_length: usize,
        roots: *const u8,
        roots_length: usize,
        record: *const u8,
        record_length: usize,
    ) -> Checked;
    pub fn dequmlo_build_tail(
        out: *mut u8,
        out_length: usize,
        level: *const u64,
        level_length: usize,
        tree: *const u8,
        tree_length: usize,
        widths: u32,
        n: usize,
        k: usize,
    ) -> u32;
    pub fn dequmlo_check_tail(
        key: Key,
        base: *const u8,
        base_length: usize,
        widths: u32,
        n: usize,
        k: usize,
        root: *const u8,
        root_length: usize,
        claim: Word,
        record: *const u8,
        record_length: usize,
    ) -> u32;
    pub fn dequmlo_compare(
        key: Key,
        base: *const u8,
        base_length: usize,
        widths: u32,
        n: usize,
        k: usize,
        position: usize,
        challenges: *const u64,
        challenges_length: usize,
        roots: *const u8,
        roots_length: usize,
        first: *const u8,
        first_length: usize,
        second: *const u8,
        second_length: usize,
        first_message: *mut u8,
        first_message_length: usize,
        second_message: *mut u8,
        second_message_length: usize,
    ) -> Compared;
    pub fn dequmlo_partial_evals(
        n: usize,
        packed: *const u64,
        packed_length: usize,
        eq: *const u64,
        eq_length: usize,
        out: *mut u64,
        out_length: usize,
    ) -> u32;
    pub fn dequmlo_fold_partials(s: *const u64, s_length: usize, rb: Coefficients) -> Answered;
    pub fn dequmlo_materialize(
        n: usize,
        z: *const u64,
        z_length: usize,
        rb: Coefficients,
        out: *mut u64,
        out_length: usize,
    ) -> u32;
    pub fn dequmlo_eval_at(
        n: usize,
        z: *const u64,
        z_length: usize,
        rb: Coefficients,
        point: *const u64,
        point_length: usize,
    ) -> Answered;
    pub fn dequmlo_import_block(block: Block) -> Word;
    pub fn dequmlo_export_block(word: Word) -> Block;
    pub fn dequmlo_import_blocks(
        blocks: *const u8,
        blocks_length: usize,
        out: *mut u64,
        out_length: usize,
    ) -> u32;
    pub fn dequmlo_export_blocks(
        words: *const u64,
        words_length: usize,
        out: *mut u8,
        out_length: usize,
    ) -> u32;
    pub fn dequmlo_ghash(key: Block, blocks: *const u8, blocks_length: usize) -> Hashed;
    pub fn dequmlo_default_parameters() -> Parameters;
    pub fn dequmlo_fastchunk() -> Parameters;
    pub fn dequmlo_balanced() -> Parameters;
    pub fn dequmlo_compactwrap() -> Parameters;
    pub fn dequmlo_deepwrap() -> Parameters;
    pub fn dequmlo_firstdefault() -> Parameters;
    pub fn dequmlo_unnamed_parameters(older: u32) -> Parameters;
}
