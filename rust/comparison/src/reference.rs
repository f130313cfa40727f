//! The rules of the scheme, written from their document alone and by other means than the proved
//! library: sums and products bit by bit, inverses by trial, the block length by Euclid's algorithm,
//! the multiples up to it out of all numbers, rows by their literal lists, values as sums of powers,
//! weights and messages by elimination, the number of blocks in a share of a padded message by trial, the
//! end of such a message from the back. Speed is no aim.

use std::sync::OnceLock;

pub mod archive;
pub mod lengths;
pub mod pool;
pub mod range;
pub mod rebuild;

/// The limits of the rules' document, apart from those that the library's users are told.
const MOST_PARTIES: i32 = 16;
const MOST_COUNTS: usize = 8;
const LONGEST_BLOCK: u64 = 840;
const LONGEST_MESSAGE: usize = 16384;

/// The sum of the two bit polynomials: bit by bit, modulo 2.
pub fn add(a: u8, b: u8) -> u8 {
    (0..8).map(|i| (((a >> i & 1) + (b >> i & 1)) % 2) << i).sum()
}

/// The product of the two bit polynomials, reduced by x^8 + x^4 + x^3 + x + 1.
fn bitwise_product(a: u8, b: u8) -> u8 {
    let mut product: u16 = 0;
    for i in 0..8 {
        for j in 0..8 {
            if a >> i & 1 == 1 && b >> j & 1 == 1 {
                product ^= 1 << (i + j);
            }
        }
    }
    for degree in (8..15).rev() {
        if product >> degree & 1 == 1 {
            product ^= 0x11b << (degree - 8);
        }
    }
    product as u8
}

/// The same, worked out once for all pairs.
pub fn mul(a: u8, b: u8) -> u8 {
    static PRODUCTS: OnceLock<Vec<u8>> = OnceLock::new();
    let product = |pair: u16| bitwise_product((pair >> 8) as u8, pair as u8);
    let products = PRODUCTS.get_or_init(|| (0..=u16::MAX).map(product).collect());
    products[256 * a as usize + b as usize]
}

/// The byte whose product with `a` is 1, if there is one.
pub fn inverse(a: u8) -> Option<u8> {
    (0..=255).find(|&x| mul(a, x) == 1)
}

fn gcd(a: u64, b: u64) -> u64 {
    if b == 0 {
        a
    } else {
        gcd(b, a % b)
    }
}

/// The check of a scheme: the block length and the rows of a block, or the first refusal.
pub fn check(n: u8, r: u8, z: u8, counts: &[u8]) -> Result<(u64, u64), u64> {
    let (n, r, z) = (n as i32, r as i32, z as i32);
    if !(2..=MOST_PARTIES).contains(&n) {
        return Err(1);
    }
    if z == 0 || r + z >= n {
        return Err(2);
    }
    let falls = counts.windows(2).all(|pair| pair[0] > pair[1]);
    let (Some(&first), Some(&last)) = (counts.first(), counts.last()) else {
        return Err(3);
    };
    if counts.len() > MOST_COUNTS || !falls || first as i32 > n || last as i32 != n - r {
        return Err(3);
    }
    let m = counts.iter().fold(1, |m, &d| {
        let step = (d as i32 - z) as u64;
        m / gcd(m, step) * step
    });
    if m > LONGEST_BLOCK {
        return Err(4);
    }
    Ok((m, m / (n - r - z) as u64))
}

/// The same, and how many multiples of the first d - z are tried in the search for m, which takes them from the lowest on
/// and ends at m, or at the limit where m is above it. They are counted among all numbers up to there.
pub fn check_tried(n: u8, r: u8, z: u8, counts: &[u8]) -> (Result<(u64, u64), u64>, u64) {
    let checked = check(n, r, z, counts);
    let last = match checked {
        Ok((m, _)) => m,
        Err(4) => LONGEST_BLOCK,
        // No search.
        Err(_) => 0,
    };
    let tried = (1..=last).filter(|number| number % (counts[0] - z) as u64 == 0).count();
    (checked, tried as u64)
}

/// Refusals, in the order in which the places are visited: the first that applies is the answer.
fn first_refusal(refusals: &[(bool, u64)]) -> Result<(), u64> {
    match refusals.iter().find(|(applies, _)| *applies) {
        Some(&(_, number)) => Err(number),
        None => Ok(()),
    }
}

/// The rows of a block, each the list of its coefficients, by the literal lists of the rules: group 1
/// holds the block's bytes in order, and each later group what the rows before it lose. What stands for
/// the bytes and the keys may be anything.
fn rows<T: Copy>(z: usize, counts: &[u8], block: &[T], keys: &[T]) -> Vec<Vec<T>> {
    let m = block.len();
    let mut rows: Vec<Vec<T>> = Vec::new();
    let mut above = 0;
    for (group, &d) in counts.iter().enumerate() {
        let d = d as usize;
        let list: Vec<T> =
            if group == 0 { block.to_vec() } else { rows.iter().flat_map(|row| row[d..above].to_vec()).collect() };
        for rest in list.chunks(d - z) {
            let first_key = rows.len() * z;
            let mut row = keys[first_key..first_key + z].to_vec();
            row.extend(rest);
            rows.push(row);
        }
        assert_eq!(rows.len(), m / (d - z));
        above = d;
    }
    rows
}

/// The powers of x from 0 on.
fn powers(x: u8, count: usize) -> Vec<u8> {
    let mut powers = vec![1];
    for _ in 1..count {
        powers.push(mul(x, *powers.last().expect("not empty")));
    }
    powers
}

/// The value of a polynomial, as a sum: each coefficient times the power of the point.
fn value(row: &[u8], powers: &[u8]) -> u8 {
    row.iter().zip(powers).fold(0, |sum, (&coefficient, &power)| sum ^ mul(coefficient, power))
}

/// The block length and the rows of a block, as lengths.
fn sizes(n: u8, r: u8, z: u8, counts: &[u8]) -> Result<(usize, usize), u64> {
    check(n, r, z, counts).map(|(m, b)| (m as usize, b as usize))
}

/// Zeros up to the end of the last block of m bytes.
fn whole_blocks(mut string: Vec<u8>, m: usize) -> Vec<u8> {
    string.resize(string.len().div_ceil(m) * m, 0);
    string
}

/// The padding of the earlier form: zeros alone.
fn filled(message: &[u8], m: usize) -> Vec<u8> {
    whole_blocks(message.to_vec(), m)
}

/// The padding of messages that know their own end: one byte 128 after the message, then zeros.
fn padded(message: &[u8], m: usize) -> Vec<u8> {
    whole_blocks([message, &[128]].concat(), m)
}

/// The shares of whole blocks of m bytes in an accepted scheme, those of all parties one after another.
pub fn shares_of_blocks(n: u8, z: u8, counts: &[u8], m: usize, string: &[u8], keys: &[u8]) -> Vec<u8> {
    let (z, blocks) = (z as usize, string.len() / m);
    let points: Vec<Vec<u8>> = (1..=n).map(|s| powers(s, n as usize)).collect();
    // The last count is n - r.
    let b = m / (counts[counts.len() - 1] as usize - z);
    let mut shares = vec![0; n as usize * blocks * b];
    for t in 0..blocks {
        let rows = rows(z, counts, &string[t * m..(t + 1) * m], &keys[t * z * b..(t + 1) * z * b]);
        for (j, row) in rows.iter().enumerate() {
            for (a, powers) in points.iter().enumerate() {
                shares[a * blocks * b + j * blocks + t] = value(row, powers);
            }
        }
    }
    shares
}

/// What the splitters have in common: they differ in how the blocks are made of the message, and in where the keys come
/// from, which are asked for by their number.
fn split_as<'a>(
    whole: impl Fn(&[u8], usize) -> Vec<u8>,
    (n, r, z, counts): (u8, u8, u8, &[u8]),
    message: &[u8],
    keys: impl FnOnce(usize) -> Result<&'a [u8], u64>,
    out: usize,
) -> Result<Vec<u8>, u64> {
    let (m, b) = sizes(n, r, z, counts)?;
    first_refusal(&[(message.len() > LONGEST_MESSAGE, 5)])?;
    let string = whole(message, m);
    let share = string.len() / m * b;
    let keys = keys(share * z as usize)?;
    first_refusal(&[(out != share * n as usize, 10)])?;
    Ok(shares_of_blocks(n, z, counts, m, &string, keys))
}

/// Keys that are lent have to be as many as are asked for.
fn lent<'a>(keys: &'a [u8]) -> impl FnOnce(usize) -> Result<&'a [u8], u64> {
    move |number| Some(keys).filter(|keys| keys.len() == number).ok_or(8)
}

/// The shares of all parties, one after another.
pub fn split(n: u8, r: u8, z: u8, counts: &[u8], message: &[u8], keys: &[u8], out: usize) -> Result<Vec<u8>, u64> {
    split_as(filled, (n, r, z, counts), message, lent(keys), out)
}

/// The same of a padded message.
pub fn split_padded(
    n: u8,
    r: u8,
    z: u8,
    counts: &[u8],
    message: &[u8],
    keys: &[u8],
    out: usize,
) -> Result<Vec<u8>, u64> {
    split_as(padded, (n, r, z, counts), message, lent(keys), out)
}

/// The length of a prefix.
pub fn prefix(n: u8, r: u8, z: u8, counts: &[u8], length: usize, d: usize, share: usize) -> Result<u64, u64> {
    let (m, b) = sizes(n, r, z, counts)?;
    first_refusal(&[(length > LONGEST_MESSAGE, 5), (!is_count(counts, d), 6)])?;
    let blocks = length.div_ceil(m);
    first_refusal(&[(share != blocks * b, 9)])?;
    Ok((m / (d - z as usize) * blocks) as u64)
}

/// The number of blocks of a padded message, so many bytes of each of which make this length. It is looked for among the
/// accepted messages; those of whole blocks give every number that the others give.
fn padded_blocks(m: usize, of_a_block: usize, length: usize) -> Result<usize, u64> {
    let mut numbers = (0..=LONGEST_MESSAGE).step_by(m).map(|message| message / m + 1);
    numbers.find(|blocks| blocks * of_a_block == length).ok_or(9)
}

/// The length of a prefix of a share of a padded message.
pub fn prefix_padded(n: u8, r: u8, z: u8, counts: &[u8], d: usize, share: usize) -> Result<u64, u64> {
    let (m, b) = sizes(n, r, z, counts)?;
    first_refusal(&[(!is_count(counts, d), 6)])?;
    let blocks = padded_blocks(m, b, share)?;
    Ok((m / (d - z as usize) * blocks) as u64)
}

/// Eliminates unknowns from linear equations over the bytes, which have at most one solution. `matrix` has one row an
/// equation: the coefficients of so many unknowns, then any number of right sides. In the answer row u has unknown u alone,
/// with the factor 1, and the rows after those have none.
fn eliminated(mut matrix: Vec<Vec<u8>>, unknowns: usize) -> Vec<Vec<u8>> {
    for column in 0..unknowns {
        let pivot = (column..matrix.len()).find(|&row| matrix[row][column] != 0).expect("one solution at most");
        matrix.swap(column, pivot);
        let factor = inverse(matrix[column][column]).expect("a pivot is not 0");
        for entry in &mut matrix[column] {
            *entry = mul(*entry, factor);
        }
        let pivot_row = matrix[column].clone();
        for (row, entries) in matrix.iter_mut().enumerate() {
            let factor = entries[column];
            if row != column && factor != 0 {
                // The pivot row is zero before its column.
                for (entry, &pivot) in entries.iter_mut().zip(&pivot_row).skip(column) {
                    *entry ^= mul(factor, pivot);
                }
            }
        }
    }
    matrix
}

/// Solves as many equations as there are unknowns. There is exactly one solution for each right side. The answer has one row
/// an unknown: its value for each right side.
fn solve(matrix: Vec<Vec<u8>>) -> Vec<Vec<u8>> {
    let size = matrix.len();
    eliminated(matrix, size).into_iter().map(|row| row[size..].to_vec()).collect()
}

fn is_count(counts: &[u8], d: usize) -> bool {
    counts.iter().any(|&count| count as usize == d)
}

fn parties_are_bad(n: u8, parties: &[u8]) -> bool {
    parties.windows(2).any(|pair| pair[0] >= pair[1]) || parties.iter().any(|&party| party == 0 || party > n)
}

/// The weights: row i, column e.
pub fn basis(n: u8, r: u8, z: u8, counts: &[u8], parties: &[u8]) -> Result<Vec<Vec<u8>>, u64> {
    check(n, r, z, counts)?;
    let d = parties.len();
    first_refusal(&[(!is_count(counts, d), 6), (parties_are_bad(n, parties), 7)])?;
    // Right side i wants the value 1 at party i and 0 at the others; unknown e is the coefficient of degree e.
    let unit = |i: usize| (0..d).map(move |k| (k == i) as u8);
    let equations = parties.iter().enumerate().map(|(i, &s)| powers(s, d).into_iter().chain(unit(i)).collect());
    let solutions = solve(equations.collect());
    Ok((0..d).map(|i| solutions.iter().map(|coefficient| coefficient[i]).collect()).collect())
}

/// The equations of a block without their right sides: one for each row that a party sends, the first so many, party after
/// party. The unknowns are the m bytes of the block and the keys of those rows. Column u is what is sent if unknown u is 1
/// and all others are 0.
fn equations(m: usize, z: usize, counts: &[u8], parties: &[u8], sent: usize) -> Vec<Vec<u8>> {
    let mut equations = vec![Vec::new(); parties.len() * sent];
    for unknown in 0..m + sent * z {
        // No block has more than m rows.
        let mut bytes = vec![0; m + m * z];
        bytes[unknown] = 1;
        let rows = rows(z, counts, &bytes[..m], &bytes[m..]);
        for (a, &s) in parties.iter().enumerate() {
            let powers = powers(s, counts[0] as usize);
            for (j, row) in rows[..sent].iter().enumerate() {
                equations[a * sent + j].push(value(row, &powers));
            }
        }
    }
    equations
}

/// Opens so many blocks of m bytes by solving the equations of all at once: they differ in their right sides alone.
fn blocks_of_prefixes(m: usize, z: usize, counts: &[u8], parties: &[u8], prefixes: &[u8], blocks: usize) -> Vec<u8> {
    let mut system = equations(m, z, counts, parties, m / (parties.len() - z));
    // A row of a party stands in its prefix with all blocks together.
    for (i, equation) in system.iter_mut().enumerate() {
        equation.extend(&prefixes[i * blocks..(i + 1) * blocks]);
    }
    let solutions = solve(system);
    (0..blocks * m).map(|place| solutions[place % m][place / m]).collect()
}

/// What the openers of the earlier form have in common: the bytes of a range of the message, which is all of it or not.
fn open_range(
    (n, r, z, counts): (u8, u8, u8, &[u8]),
    length: usize,
    (start, range_length): (usize, usize),
    parties: &[u8],
    prefixes: &[u8],
    out: usize,
) -> Result<Vec<u8>, u64> {
    let (m, _) = sizes(n, r, z, counts)?;
    let (d, z) = (parties.len(), z as usize);
    first_refusal(&[(length > LONGEST_MESSAGE, 5), (!is_count(counts, d), 6), (parties_are_bad(n, parties), 7)])?;
    let end = start as u128 + range_length as u128;
    let blocks = length.div_ceil(m);
    first_refusal(&[
        (end > length as u128, 15),
        (prefixes.len() != d * (m / (d - z)) * blocks, 9),
        (out != range_length, 10),
    ])?;
    let message = blocks_of_prefixes(m, z, counts, parties, prefixes, blocks);
    Ok(message[start..start + range_length].to_vec())
}

/// The bytes used, which are all, and the message.
#[allow(clippy::too_many_arguments)]
pub fn reconstruct(
    n: u8,
    r: u8,
    z: u8,
    counts: &[u8],
    length: usize,
    parties: &[u8],
    prefixes: &[u8],
    out: usize,
) -> Result<(u64, Vec<u8>), u64> {
    let message = open_range((n, r, z, counts), length, (0, length), parties, prefixes, out)?;
    Ok((prefixes.len() as u64, message))
}

/// The length of the message that these blocks are padded from.
fn unpadded_length(m: usize, string: &[u8]) -> Result<usize, u64> {
    let last_block = string.len() - m;
    let end = string.iter().rposition(|&byte| byte != 0).filter(|&place| place >= last_block && string[place] == 128);
    end.filter(|&length| length <= LONGEST_MESSAGE).ok_or(11)
}

/// The bytes used, the length of the padded message, and its blocks, padding and all.
pub fn reconstruct_padded(
    n: u8,
    r: u8,
    z: u8,
    counts: &[u8],
    parties: &[u8],
    prefixes: &[u8],
    out: usize,
) -> Result<((u64, u64), Vec<u8>), u64> {
    let (m, _) = sizes(n, r, z, counts)?;
    let (d, z) = (parties.len(), z as usize);
    first_refusal(&[(!is_count(counts, d), 6), (parties_are_bad(n, parties), 7)])?;
    let of_a_block = d * (m / (d - z));
    let blocks = padded_blocks(m, of_a_block, prefixes.len())?;
    first_refusal(&[(out != blocks * m, 10)])?;
    let string = blocks_of_prefixes(m, z, counts, parties, prefixes, blocks);
    let length = unpadded_length(m, &string)?;
    Ok((((of_a_block * blocks) as u64, length as u64), string))
}
