//! The Rust against what docs/SPECIFICATION.md says, and against itself.

use crate::support::{start, Random};
use oracle::{code, field, hash, query, ring, tree, Word};

fn word(number: u128) -> Word {
    Word(number)
}

#[test]
fn checked_small_values() {
    start();
    assert_eq!(field::mul(word(1 << 127), word(2)), word(0x87));
    assert_eq!(field::mul(word(3), word(3)), word(5));
    assert_eq!(
        field::square(word(1 << 127)),
        word(0xc000_0000_0000_0000_0000_0000_0000_1067)
    );
    assert_eq!(
        field::inv(word(2)),
        word(0x8000_0000_0000_0000_0000_0000_0000_0043)
    );
    assert_eq!(field::eq_build(&[word(2)]), [3, 2].map(word));
    assert_eq!(
        field::eq_build(&[word(2), word(4)]),
        [15, 10, 12, 8].map(word)
    );
    let mut rb = [word(0); 128];
    (rb[0], rb[1]) = (word(1), word(4));
    assert_eq!(ring::eval_at(&[word(2)], &rb, &[word(2)]), word(7));
    assert_eq!(ring::eval_at(&[], &rb, &[]), rb[0]);
    let partials = ring::partial_evals(&[word(1)], &[word(5)]);
    let expected = |b: usize| word(u128::from(b == 0 || b == 2));
    assert!((0..128).all(|b| partials[b] == expected(b)));
    let codeword = code::encode(1, 1, &[word(7)], &[word(5), word(9)]);
    assert_eq!(codeword, [5, 9, 33, 45].map(word));
    assert_eq!(
        code::fold(1, 1, 0, word(2), &codeword),
        (vec![word(29), word(57)], 0)
    );
    assert_eq!([1, 2, 8, 16].map(query::fold_tree_width), [1, 2, 2, 8]);
}

/// The leaf message of SPECIFICATION 5.2, written out.
fn leaf_message(domain: &str, count: u64, width: u64, group: u64, values: &[Word]) -> Vec<u8> {
    let mut message = 5u64.to_le_bytes().to_vec();
    let (count, own_width) = (count.to_le_bytes(), width.to_le_bytes());
    for part in [b"magnetar/leafN/v1", domain.as_bytes(), &count, &own_width] {
        message.extend((part.len() as u64).to_le_bytes());
        message.extend(part);
    }
    for number in [width, group, 16 * width] {
        message.extend(number.to_le_bytes());
    }
    values
        .iter()
        .for_each(|value| message.extend(value.0.to_le_bytes()));
    message
}

#[test]
fn leaf_messages() {
    start();
    let mut random = Random(1);
    assert_eq!(leaf_message("d", 8, 8, 0, &random.words(8)).len(), 226);
    for domain in ["", "d", &"d".repeat(88), &"d".repeat(255)] {
        for width in [1, 2, 8, 32, 512] {
            let values = random.words(width);
            let message = leaf_message(domain, 1024, width as u64, 1, &values);
            let digest = tree::leaf(domain, 1024, width, 1, &values);
            assert_eq!(digest, hash::blake3(&message));
            assert_eq!(
                digest,
                tree::leaf_of_place(domain, 1024, width, 2 * width - 1, &values)
            );
        }
    }
}

#[test]
fn node_messages() {
    start();
    let (left, right) = (hash::blake3(b"left"), hash::blake3(b"right"));
    for length in [0, 1, 20, 88] {
        let domain = "d".repeat(length);
        let level = 3u64.to_le_bytes();
        let parts: [&[u8]; 5] = [
            b"magnetar/node/v1",
            domain.as_bytes(),
            &level,
            &left,
            &right,
        ];
        assert_eq!(hash::serialize_parts(&parts).len(), 136 + length);
        assert_eq!(
            tree::node(&domain, 3, &left, &right),
            hash::blake3_domain(&parts)
        );
    }
}

#[test]
fn gamma_messages() {
    start();
    let (n, k, domain) = (3u64, 2u64, "d");
    let gammas = code::derive(n as usize, k as usize, domain);
    for (at, gamma) in gammas.iter().enumerate() {
        let (j, i) = (at as u64 / n, at as u64 % n);
        let numbers = [n, k, j, i].map(u64::to_le_bytes);
        let mut parts: Vec<&[u8]> = vec![b"magnetar/pcs/gamma/v1", domain.as_bytes()];
        parts.extend(numbers.iter().map(|number| &number[..]));
        assert_eq!(hash::serialize_parts(&parts).len(), 110);
        assert_eq!(gamma.0.to_le_bytes(), hash::blake3_domain(&parts)[..16]);
    }
}

/// P(z): the sum over v of word v times entry v of z's equality table.
fn extension(table: &[Word], z: &[Word]) -> Word {
    let eq = field::eq_build(z);
    table
        .iter()
        .zip(&eq)
        .fold(word(0), |sum, (&t, &e)| sum + field::mul(t, e))
}

#[test]
fn codewords_are_shifted_extensions() {
    start();
    let mut random = Random(2);
    for (n, k) in [(0, 0), (0, 2), (1, 1), (3, 2), (5, 1), (6, 4)] {
        let (gammas, table) = (random.words(n * k), random.words(1 << n));
        let codeword = code::encode(n, k, &gammas, &table);
        for (place, &entry) in codeword.iter().enumerate() {
            let shift = code::l_of(n, k, n, &gammas, place >> n);
            let bit = |i: usize| word((place >> i & 1) as u128);
            let z: Vec<Word> = (0..n).map(|i| bit(i) + shift[i]).collect();
            assert_eq!(entry, extension(&table, &z));
        }
    }
}

/// A committed table folded at any variables: L is what the request `l_of` takes it
/// from, the first n entries of L before the folds.
#[test]
fn folded_codewords_read_the_first_coordinates() {
    start();
    let mut random = Random(5);
    for (n, k) in [(1, 0), (1, 1), (3, 2), (5, 4), (6, 3)] {
        let table = random.words(1 << n);
        let (mut codeword, _) = query::commit(k, "d", &table);
        let gammas = code::derive(n, k, "d");
        for left in (0..n).rev() {
            codeword = codeword.fold(random.below(left + 1), random.word());
            for eps in 0..1 << k {
                let shift = code::shift(&codeword, eps);
                assert_eq!(shift, code::l_of(left, k, n, &gammas, eps));
                assert_eq!(shift, code::l_of(n, k, n, &gammas, eps)[..left]);
            }
        }
    }
}

/// Block eps of a folded codeword is shifted by the entries of L(eps) at the
/// coordinates that are left; those that are gone are in the challenges of the table.
#[test]
fn folded_codewords_are_shifted_by_what_is_left() {
    start();
    let mut random = Random(6);
    for (n, k) in [(1, 1), (2, 1), (3, 2), (4, 4), (5, 3)] {
        let (gammas, table) = (random.words(n * k), random.words(1 << n));
        let mut codeword = code::encode(n, k, &gammas, &table);
        let mut tables = vec![table; 1 << k];
        let mut left: Vec<usize> = (0..n).collect();
        while let Some(last) = left.len().checked_sub(1) {
            let (var, r) = (random.below(last + 1), random.word());
            codeword = code::fold(last + 1, k, var, r, &codeword).0;
            let gone = left.remove(var);
            for (eps, table) in tables.iter_mut().enumerate() {
                let shift = code::l_of(n, k, n, &gammas, eps);
                *table = code::fold(last + 1, 0, var, r + shift[gone], table).0;
                let rest: Vec<Word> = left.iter().map(|&i| shift[i]).collect();
                let shifted = &code::encode(last, 1, &rest, table)[1 << last..];
                assert_eq!(&codeword[eps << last..(eps + 1) << last], shifted);
            }
        }
    }
}

#[test]
fn equality_tables_agree() {
    start();
    let mut random = Random(3);
    for n in 0..=12 {
        let point = random.words(n);
        let table = field::eq_build(&point);
        assert_eq!(table, field::eq_build_fused(&point));
        assert_eq!(
            (1 << n, table),
            field::eq_build_fused_into(&point, 1 << n, (1 << n) / 2)
        );
    }
}

#[test]
fn runs_agree_with_products() {
    start();
    let mut random = Random(4);
    for length in (0..40).chain([63, 64, 65, 1000]) {
        let (src, dst, r) = (random.words(length), random.words(length), random.word());
        let products: Vec<Word> = src.iter().map(|&w| field::mul(w, r)).collect();
        assert_eq!(field::mul_run(&src, r), products);
        let mut sums = dst.clone();
        field::axpy_run(&mut sums, &src, r);
        assert!((0..length).all(|at| sums[at] == dst[at] + products[at]));
    }
}
