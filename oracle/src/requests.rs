//! The requests: name, arguments, what is answered, and the call.

use crate::protocol::{self, Args, Bad};
use oracle::query::{self, Claim, Levels};
use oracle::record::Query;
use oracle::{code, field, hash, quietly, ring, tree, Digest, Word};

struct Request {
    name: &'static str,
    arguments: &'static str,
    answer: &'static str,
    call: fn(&mut Args) -> Result<String, Bad>,
}

/// The answer line: the result, `panic` where the Rust panics, `error` and the
/// Rust's message where it returns one, `bad` and the reason for a bad request.
pub fn answer(line: &str, store: &[u8]) -> String {
    let (name, arguments) = line.split_once(char::is_whitespace).unwrap_or((line, ""));
    let Some(request) = REQUESTS.iter().find(|request| request.name == name) else {
        return format!("bad no request {name}: try `oracle help`");
    };
    match quietly(|| respond(request, arguments, store)) {
        Some(Ok(answer)) => answer,
        Some(Err(reason)) => format!("bad {reason}"),
        None => "panic".into(),
    }
}

fn respond(request: &Request, arguments: &str, store: &[u8]) -> Result<String, Bad> {
    let mut args = Args::new(arguments, store);
    let answer = (request.call)(&mut args)?;
    args.end()?;
    Ok(answer)
}

/// The list of requests, for people.
pub fn help() -> String {
    let mut text = String::from(FORMS);
    for request in REQUESTS {
        text += &format!(
            "{} {}\n    {}\n",
            request.name, request.arguments, request.answer
        );
    }
    text
}

const FORMS: &str = "\
A request is a line: its name, then its arguments, apart by blanks.
  word     1 to 32 hexadecimal digits, highest first
  words    words joined by commas
  bytes    hexadecimal, two digits a byte; a domain is bytes in UTF-8
  digests  32 bytes each, end to end
  number   decimal
  numbers  numbers joined by commas
  widths   0: the present set of widths, which is the Rust's
  room     decimal: how long an output is, in halves of words or in bytes; the Rust makes its own
A lone - is no words, bytes or digests. README.md has the shorter forms of long arguments.
An answer is numbers, then outputs: words and bytes as above, past 64 bytes # and the first 16
bytes of their digest. `panic` is where the Rust panics, `error ..` what it returns, `bad ..` a bad request.

";

/// Requests that the programs of crates/ answer too, then those that only the Rust has.
const REQUESTS: &[Request] = &[
    Request {
        name: "add",
        arguments: "a:word b:word",
        answer: "0, word",
        call: |args| Ok(one(field::add(args.word("a")?, args.word("b")?))),
    },
    Request {
        name: "mul",
        arguments: "a:word b:word",
        answer: "0, word",
        call: |args| Ok(one(field::mul(args.word("a")?, args.word("b")?))),
    },
    Request {
        name: "square",
        arguments: "a:word",
        answer: "0, word",
        call: |args| Ok(one(field::square(args.word("a")?))),
    },
    Request {
        name: "square_by_table",
        arguments: "a:word",
        answer: "0, word: the Rust's one square",
        call: |args| Ok(one(field::square(args.word("a")?))),
    },
    Request {
        name: "inv",
        arguments: "a:word",
        answer: "0, word",
        call: |args| Ok(one(field::inv(args.word("a")?))),
    },
    Request {
        name: "phi_c",
        arguments: "p:word c:128 words",
        answer: "0, word",
        call: |args| Ok(one(field::phi_c(args.word("p")?, &args.array("c")?))),
    },
    Request {
        name: "phi_tab",
        arguments: "p:word c:128 words",
        answer: "0, word: PhiTab::apply",
        call: |args| Ok(one(field::phi_tab(args.word("p")?, &args.array("c")?))),
    },
    Request {
        name: "eq_coefficients",
        arguments: "r:7 words",
        answer: "0, 128 words",
        call: |args| Ok(many(&field::eq_coefficients(&args.array("r")?))),
    },
    Request {
        name: "pack_table",
        arguments: "bits:bytes room",
        answer: "0, words",
        call: pack_table,
    },
    Request {
        name: "eq_table",
        arguments: "n:number point:words room",
        answer: "0, words: the equality table by EqBits::build",
        call: eq_table,
    },
    Request {
        name: "mul_run",
        arguments: "src:words r:word room",
        answer: "0, words: r × src",
        call: mul_run,
    },
    Request {
        name: "axpy_run",
        arguments: "dst:words src:words r:word room",
        answer: "0, words: dst + r × src; the lists are of one length",
        call: axpy_run,
    },
    Request {
        name: "partial_evals",
        arguments: "n:number packed:words eq:words room",
        answer: "0, 128 words",
        call: partial_evals,
    },
    Request {
        name: "fold_partials",
        arguments: "s:words rb:128 words",
        answer: "0, word",
        call: |args| Ok(one(ring::fold_partials(&args.words("s")?, &args.array("rb")?))),
    },
    Request {
        name: "materialize",
        arguments: "n:number z:words rb:128 words room",
        answer: "0, words",
        call: materialize,
    },
    Request {
        name: "eval_at",
        arguments: "n:number z:words rb:128 words point:words",
        answer: "0, word",
        call: eval_at,
    },
    Request {
        name: "extension_sides",
        arguments: "n:number packed:words point:words row:7 words room",
        answer: "0, words: the equality table; two words: the partials summed with eq_coefficients, and the bits' extension",
        call: extension_sides,
    },
    Request {
        name: "fold_sides",
        arguments: "n:number packed:words point:words rb:128 words room",
        answer: "0, words: the indicator's table; two words: the partials' fold, and the words summed with the table",
        call: fold_sides,
    },
    Request {
        name: "derive",
        arguments: "n:number k:number domain room",
        answer: "0, words: the gammas, j outer",
        call: derive,
    },
    Request {
        name: "l_of",
        arguments: "n:number k:number original:number eps:number coordinates:numbers gammas:words room",
        answer: "0, words: L(eps) of a codeword folded from the original n to n; the Rust has the coordinates 0 to n − 1",
        call: l_of,
    },
    Request {
        name: "encode",
        arguments: "n:number k:number table:words gammas:words room",
        answer: "0, words: the codeword",
        call: encode,
    },
    Request {
        name: "fold",
        arguments:
            "n:number k:number original:number var:number r:word coordinates:numbers values:words room",
        answer: "0, the new n, the coordinates that are left and 0 (ours), the folded words",
        call: fold,
    },
    Request {
        name: "blake3",
        arguments: "message:bytes",
        answer: "0, digest",
        call: |args| Ok(some(&hash::blake3(&args.bytes("message")?))),
    },
    Request {
        name: "fed",
        arguments: "message:bytes times:number last:bytes",
        answer: "0, digest of the message so many times and the last bytes",
        call: fed,
    },
    Request {
        name: "serialize_parts",
        arguments: "parts:bytes, end to end lengths:numbers room",
        answer: "0, bytes",
        call: serialize_parts,
    },
    Request {
        name: "leaf_digest",
        arguments: "domain count:number width:number place:number values:words",
        answer: "0, digest of the group of this place (leaf_digest_of_batched)",
        call: |args| {
            with_group(args, "place", |domain, count, width, place, values| {
                some(&tree::leaf_of_place(domain, count, width, place, values))
            })
        },
    },
    Request {
        name: "node_digest",
        arguments: "domain level:number left:digest right:digest",
        answer: "0, digest",
        call: node,
    },
    Request {
        name: "build",
        arguments: "domain count:number width:number values:words room",
        answer: "0, digests: 2 × groups − 1, leaves first (build_batched)",
        call: build_tree,
    },
    Request {
        name: "open",
        arguments: "count:number width:number place:number tree:digests room",
        answer: "0, the path off a lent tree",
        call: open,
    },
    Request {
        name: "root_of_path",
        arguments: "domain count:number width:number place:number values:words path:digests",
        answer: "0, digest (leaf_digest_of_batched, verify_batched)",
        call: root_of_path,
    },
    Request {
        name: "fold_tree_width",
        arguments: "widths:number length:number",
        answer: "number",
        call: fold_tree_width,
    },
    Request {
        name: "level_domain",
        arguments: "base:domain level:number room",
        answer: "its length, bytes",
        call: level_domain,
    },
    Request {
        name: "profile",
        arguments: "which:number room",
        answer: "k, query count, the domain's length, the domain with zeros after it; 0 is the Rust's default",
        call: profile,
    },
    Request {
        name: "commit",
        arguments:
            "widths:number n:number k:number domain table:words two rooms coordinates:numbers room",
        answer: "0, coordinates (ours), gammas, codeword, digests of the level 0 tree (commit_table)",
        call: commit,
    },
    Request {
        name: "build_query",
        arguments: "widths:number n:number k:number position:number levels:words trees:digests room",
        answer: "0, bytes: build_query over lent levels and trees",
        call: build_query,
    },
    Request {
        name: "check_query",
        arguments:
            "domain widths:number n:number k:number position:number challenges:words roots:digests record:bytes",
        answer: "number, level (step 5; 14 is ours)",
        call: check_query,
    },
    Request {
        name: "check_tail",
        arguments: "domain widths:number n:number k:number root:digest claim:word record:bytes",
        answer: "number (step 6; 14 is ours)",
        call: check_tail,
    },
    Request {
        name: "mul_portable",
        arguments: "a:word b:word",
        answer: "word: mul as it runs without PCLMULQDQ (wrong)",
        call: |args| {
            Ok(protocol::word(field::mul_portable(
                args.word("a")?,
                args.word("b")?,
            )))
        },
    },
    Request {
        name: "eq_build_fused",
        arguments: "point:words",
        answer: "words: the equality table by eq_build_fused",
        call: |args| {
            Ok(protocol::words(&field::eq_build_fused(
                &args.words("point")?,
            )))
        },
    },
    Request {
        name: "eq_build_fused_into",
        arguments: "point:words first:number second:number",
        answer: "length returned, then the first buffer; both lent zero, of these lengths",
        call: eq_build_fused_into,
    },
    Request {
        name: "blake3_domain",
        arguments: "part:bytes ..",
        answer: "digest of the parts' serialization",
        call: |args| with_parts(args, |parts| protocol::bytes(&hash::blake3_domain(parts))),
    },
    Request {
        name: "leaf",
        arguments: "domain count:number width:number group:number values:words",
        answer: "digest of the group with this number (hash_group)",
        call: |args| {
            with_group(args, "group", |domain, count, width, group, values| {
                protocol::bytes(&tree::leaf(domain, count, width, group, values))
            })
        },
    },
    Request {
        name: "levels",
        arguments: "k:number domain table:words challenges:words",
        answer: "words of every level end to end, digests of every tree, every root",
        call: levels,
    },
    Request {
        name: "query_record",
        arguments: "k:number domain table:words challenges:words position:number",
        answer: "bytes: the table committed, folded, then build_query",
        call: query_record,
    },
    Request {
        name: "tail_record",
        arguments: "k:number domain table:words challenges:words",
        answer: "bytes, then the terminal claim (prove_ring_switch)",
        call: tail_record,
    },
    Request {
        name: "check_query_sha3",
        arguments:
            "domain widths:number n:number k:number nonce:number challenges:words roots:digests record:bytes",
        answer: "the position drawn by the published Transcript, number",
        call: check_query_sha3,
    },
];

/// An entry's answer: its number, which is 0 here, and its output.
fn one(word: Word) -> String {
    many(&[word])
}

fn many(words: &[Word]) -> String {
    format!("0 {}", protocol::output_words(words))
}

fn some(bytes: &[u8]) -> String {
    format!("0 {}", protocol::output(bytes))
}

/// A `panic` is to be the Rust's own: what the oracle itself needs is asked first.
fn want(holds: bool, what: &str) -> Result<(), Bad> {
    holds.then_some(()).ok_or(format!("wanted: {what}"))
}

/// The set of widths: the Rust has one.
fn present(args: &mut Args) -> Result<(), Bad> {
    want(args.number("widths")? == 0, "the present set of widths, 0")
}

fn fold_tree_width(args: &mut Args) -> Result<String, Bad> {
    present(args)?;
    Ok(query::fold_tree_width(args.number("length")?).to_string())
}

fn pack_table(args: &mut Args) -> Result<String, Bad> {
    let words = field::pack_table(&args.bytes("bits")?);
    args.output()?;
    Ok(many(&words))
}

fn eq_table(args: &mut Args) -> Result<String, Bad> {
    let (n, point) = (args.number("n")?, args.words("point")?);
    want(point.len() == n, "n coordinates")?;
    args.output()?;
    Ok(many(&field::eq_build(&point)))
}

fn mul_run(args: &mut Args) -> Result<String, Bad> {
    let words = field::mul_run(&args.words("src")?, args.word("r")?);
    args.output()?;
    Ok(many(&words))
}

fn fed(args: &mut Args) -> Result<String, Bad> {
    let (message, times) = (args.bytes("message")?, args.number("times")?);
    let bytes = [message.repeat(times), args.bytes("last")?].concat();
    Ok(some(&hash::blake3(&bytes)))
}

fn serialize_parts(args: &mut Args) -> Result<String, Bad> {
    let (bytes, lengths) = (args.bytes("parts")?, args.numbers("lengths")?);
    want(lengths.iter().sum::<usize>() == bytes.len(), "the lengths' sum of bytes")?;
    let mut rest = &bytes[..];
    let mut parts = Vec::new();
    for length in lengths {
        let part;
        (part, rest) = rest.split_at(length);
        parts.push(part);
    }
    args.output()?;
    Ok(some(&hash::serialize_parts(&parts)))
}

fn with_parts(args: &mut Args, call: impl Fn(&[&[u8]]) -> String) -> Result<String, Bad> {
    let parts = args.all_bytes()?;
    let parts: Vec<&[u8]> = parts.iter().map(Vec::as_slice).collect();
    Ok(call(&parts))
}

fn with_group(
    args: &mut Args,
    which: &str,
    call: impl Fn(&str, usize, usize, usize, &[Word]) -> String,
) -> Result<String, Bad> {
    let domain = args.domain()?;
    let (count, width) = (args.number("count")?, args.number("width")?);
    let which = args.number(which)?;
    Ok(call(&domain, count, width, which, &args.words("values")?))
}

fn axpy_run(args: &mut Args) -> Result<String, Bad> {
    let (mut dst, src) = (args.words("dst")?, args.words("src")?);
    // The Rust would write beyond the shorter list.
    want(dst.len() == src.len(), "dst and src of one length")?;
    field::axpy_run(&mut dst, &src, args.word("r")?);
    args.output()?;
    Ok(many(&dst))
}

fn eq_build_fused_into(args: &mut Args) -> Result<String, Bad> {
    let point = args.words("point")?;
    let (first, second) = (args.number("first")?, args.number("second")?);
    let (length, table) = field::eq_build_fused_into(&point, first, second);
    Ok(format!("{length} {}", protocol::words(&table)))
}

fn node(args: &mut Args) -> Result<String, Bad> {
    let (domain, level) = (args.domain()?, args.number("level")? as u64);
    let (left, right) = (args.digest("left")?, args.digest("right")?);
    Ok(some(&tree::node(&domain, level, &left, &right)))
}

fn build_tree(args: &mut Args) -> Result<String, Bad> {
    let (domain, count) = (args.domain()?, args.number("count")?);
    let (width, values) = (args.number("width")?, args.words("values")?);
    want(values.len() == count, "as many values as the count")?;
    args.output()?;
    Ok(some(&tree::build(&domain, &values, width).concat()))
}

fn open(args: &mut Args) -> Result<String, Bad> {
    let (count, width) = (args.number("count")?, args.number("width")?);
    let (place, digests) = (args.number("place")?, args.digests("tree")?);
    let groups = count.checked_div(width).ok_or("the width is 0")?;
    want(digests.len() + 1 == 2 * groups, "2 × groups − 1 digests")?;
    args.output()?;
    Ok(some(&tree::open(&digests, count, width, place).1.concat()))
}

fn root_of_path(args: &mut Args) -> Result<String, Bad> {
    let domain = args.domain()?;
    let (count, width) = (args.number("count")?, args.number("width")?);
    let place = args.number("place")?;
    let (values, path) = (args.words("values")?, args.digests("path")?);
    Ok(
        match tree::root_of_path(&domain, count, width, place, &values, &path) {
            Ok(root) => some(&root),
            Err(message) => format!("error {message}"),
        },
    )
}

fn derive(args: &mut Args) -> Result<String, Bad> {
    let (n, k) = (args.number("n")?, args.number("k")?);
    let gammas = code::derive(n, k, &args.domain()?);
    args.output()?;
    Ok(many(&gammas))
}

fn l_of(args: &mut Args) -> Result<String, Bad> {
    let (n, k, original) = read_shape(args)?;
    let (eps, coordinates) = (args.number("eps")?, args.numbers("coordinates")?);
    want(
        coordinates.into_iter().eq(0..n),
        "the coordinates 0 to n − 1",
    )?;
    let gammas = read_gammas(args, original, k)?;
    args.output()?;
    Ok(many(&code::l_of(n, k, original, &gammas, eps)))
}

fn encode(args: &mut Args) -> Result<String, Bad> {
    let (n, k, table) = (args.number("n")?, args.number("k")?, args.words("table")?);
    let gammas = read_gammas(args, n, k)?;
    args.output()?;
    Ok(many(&code::encode(n, k, &gammas, &table)))
}

fn read_gammas(args: &mut Args, n: usize, k: usize) -> Result<Vec<Word>, Bad> {
    let gammas = args.words("gammas")?;
    want(gammas.len() == n * k, "k rows of n gammas")?;
    Ok(gammas)
}

/// n, k and the original n of a codeword in use.
fn read_shape(args: &mut Args) -> Result<(usize, usize, usize), Bad> {
    let (n, k) = (args.number("n")?, args.number("k")?);
    let original = args.number("original")?;
    want(n <= original, "n at most the original n")?;
    Ok((n, k, original))
}

/// The list of coordinates is ours: a fold drops its variable's entry, and 0 stands behind.
fn fold(args: &mut Args) -> Result<String, Bad> {
    let (n, k, original) = read_shape(args)?;
    let (var, r) = (args.number("var")?, args.word("r")?);
    let mut coordinates = args.numbers("coordinates")?;
    let rising = coordinates.windows(2).all(|pair| pair[0] < pair[1]);
    let below = coordinates.iter().all(|&i| i < original);
    want(
        coordinates.len() == n && rising && below,
        "n rising coordinates below the original n",
    )?;
    let (values, new_n) = code::fold(n, k, var, r, &args.words("values")?);
    args.output()?;
    if var < n {
        coordinates.remove(var);
        coordinates.push(0);
    }
    Ok(format!(
        "0 {new_n} {} {}",
        protocol::numbers(&coordinates),
        protocol::output_words(&values)
    ))
}

fn partial_evals(args: &mut Args) -> Result<String, Bad> {
    let n = args.number("n")?;
    let (packed, eq) = (args.words("packed")?, args.words("eq")?);
    want(packed.len() == 1 << n, "2^n words")?;
    args.output()?;
    Ok(many(&ring::partial_evals(&eq, &packed)))
}

fn materialize(args: &mut Args) -> Result<String, Bad> {
    let (n, z) = (args.number("n")?, args.words("z")?);
    want(z.len() == n, "n coordinates")?;
    let table = ring::materialize(&z, &args.array("rb")?);
    args.output()?;
    Ok(many(&table))
}

fn eval_at(args: &mut Args) -> Result<String, Bad> {
    let (n, z, rb) = (args.number("n")?, args.words("z")?, args.array("rb")?);
    want(z.len() == n, "n coordinates")?;
    Ok(one(ring::eval_at(&z, &rb, &args.words("point")?)))
}

/// What both identities are about: packed words and a point.
fn words_and_point(args: &mut Args) -> Result<(Vec<Word>, Vec<Word>), Bad> {
    let n = args.number("n")?;
    let (packed, point) = (args.words("packed")?, args.words("point")?);
    want(packed.len() == 1 << n, "2^n words")?;
    want(point.len() == n, "n coordinates")?;
    Ok((packed, point))
}

fn extension_sides(args: &mut Args) -> Result<String, Bad> {
    let (packed, point) = words_and_point(args)?;
    let row = args.array("row")?;
    args.output()?;
    let sides = ring::extension_sides(&packed, &point, &row);
    Ok(table_and_sides(&field::eq_build(&point), sides))
}

fn fold_sides(args: &mut Args) -> Result<String, Bad> {
    let (packed, point) = words_and_point(args)?;
    let rb = args.array("rb")?;
    args.output()?;
    let sides = ring::fold_sides(&packed, &point, &rb);
    Ok(table_and_sides(&ring::materialize(&point, &rb), sides))
}

fn table_and_sides(table: &[Word], (left, right): (Word, Word)) -> String {
    let sides = protocol::output_words(&[left, right]);
    format!("{} {sides}", many(table))
}

fn level_domain(args: &mut Args) -> Result<String, Bad> {
    let base = args.domain()?;
    let domain = query::level_domain(&base, args.number("level")?);
    args.output()?;
    let output = protocol::output(domain.as_bytes());
    Ok(format!("{} {output}", domain.len()))
}

fn profile(args: &mut Args) -> Result<String, Bad> {
    let params = match args.number("which")? {
        0 => query::default_params(),
        which => query::profiles()
            .get(which - 1)
            .ok_or("there are four profiles")?
            .clone(),
    };
    let mut domain = params.domain.into_bytes();
    let length = domain.len();
    domain.resize(args.output()?, 0);
    let output = protocol::output(&domain);
    Ok(format!("{} {} {length} {output}", params.k, params.queries))
}

fn commit(args: &mut Args) -> Result<String, Bad> {
    present(args)?;
    let (n, k, domain) = (args.number("n")?, args.number("k")?, args.domain()?);
    let table = args.words("table")?;
    want(table.len() == 1 << n, "2^n words")?;
    let made = query::commitment(k, &domain, &table);
    (args.output()?, args.output()?);
    args.numbers("coordinates")?;
    args.output()?;
    let coordinates: Vec<usize> = (0..n).collect();
    Ok(format!(
        "0 {} {} {} {}",
        protocol::numbers(&coordinates),
        protocol::output_words(&made.gammas),
        protocol::output_words(&made.codeword),
        protocol::output(&made.digests.concat())
    ))
}

/// Reads k, domain, table and challenges; commits and folds.
fn read_levels(args: &mut Args) -> Result<(usize, Levels), Bad> {
    let (k, domain) = (args.number("k")?, args.domain()?);
    let (table, challenges) = (args.words("table")?, args.words("challenges")?);
    Ok((
        challenges.len(),
        Levels::of(k, &domain, &table, &challenges),
    ))
}

fn levels(args: &mut Args) -> Result<String, Bad> {
    let (last, levels) = read_levels(args)?;
    let values: Vec<Word> = (0..=last).flat_map(|l| levels.values(l).to_vec()).collect();
    let digests: Vec<Digest> = (0..=last).flat_map(|l| levels.digests(l)).collect();
    Ok(format!(
        "{} {} {}",
        protocol::words(&values),
        protocol::digests(&digests),
        protocol::digests(&levels.roots())
    ))
}

fn query_record(args: &mut Args) -> Result<String, Bad> {
    let (_, levels) = read_levels(args)?;
    Ok(protocol::bytes(
        &levels.query(args.number("position")?).to_bytes(),
    ))
}

fn build_query(args: &mut Args) -> Result<String, Bad> {
    present(args)?;
    let (n, k) = (args.number("n")?, args.number("k")?);
    let position = args.number("position")?;
    let (values, digests) = (args.words("levels")?, args.digests("trees")?);
    want(n + k <= 24, "n + k at most 24")?;
    want(
        values.len() == query::levels_words(n, k),
        "every level, end to end",
    )?;
    want(
        digests.len() == query::levels_digests(n, k),
        "every tree, end to end",
    )?;
    let levels = Levels::lent(n, k, &values, &digests);
    args.output()?;
    Ok(some(&levels.query(position).to_bytes()))
}

fn tail_record(args: &mut Args) -> Result<String, Bad> {
    let (k, domain) = (args.number("k")?, args.domain()?);
    let (table, challenges) = (args.words("table")?, args.words("challenges")?);
    want(
        table.len() == 1 << challenges.len(),
        "a challenge for each variable",
    )?;
    let proof = query::prove(k, &domain, &table, &challenges, &[]);
    let claim = protocol::word(proof.terminal_claim);
    Ok(format!(
        "{} {claim}",
        protocol::bytes(&proof.tail.to_bytes())
    ))
}

/// Reads a claim, a place and a record, and gives them to the call.
fn with_claim(
    args: &mut Args,
    place: &str,
    call: impl Fn(&Claim, usize, &[u8]) -> Result<String, Bad>,
) -> Result<String, Bad> {
    let domain = args.domain()?;
    present(args)?;
    let (n, k) = (args.number("n")?, args.number("k")?);
    let place = args.number(place)?;
    let (challenges, roots) = (args.words("challenges")?, args.digests("roots")?);
    want(
        challenges.len() == n && roots.len() == n + 1,
        "n challenges and n + 1 roots",
    )?;
    let claim = Claim {
        n,
        k,
        domain: &domain,
        challenges: &challenges,
        roots: &roots,
    };
    call(&claim, place, &args.bytes("record")?)
}

fn check_query(args: &mut Args) -> Result<String, Bad> {
    with_claim(args, "position", |claim, position, record| {
        let answer = query::check_query_bytes(claim, position, record);
        Ok(format!("{} {}", answer.number, answer.level))
    })
}

fn check_query_sha3(args: &mut Args) -> Result<String, Bad> {
    with_claim(args, "nonce", |claim, nonce, record| {
        let record = Query::from_bytes(record);
        let record = record.ok_or("the record does not read whole")?;
        let (position, number) = query::check_query_sha3(claim, nonce as u64, &record);
        Ok(format!("{position} {number}"))
    })
}

fn check_tail(args: &mut Args) -> Result<String, Bad> {
    let domain = args.domain()?;
    present(args)?;
    let (n, k) = (args.number("n")?, args.number("k")?);
    let (root, claim) = (args.digest("root")?, args.word("claim")?);
    let record = args.bytes("record")?;
    Ok(query::check_tail_bytes(n, k, &domain, root, claim, &record).to_string())
}
