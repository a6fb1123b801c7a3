//! Polynomial relations between power series modulo a prime: a safe interface to the proved engine.
//!
//! Every call takes numbers and slices, allocates nothing, and answers a result or a [`Refusal`]. On a refusal every slice is as
//! lent. Polynomials and series are slices of words, low coefficient first. Rows and series are counted from 1.
//!
//! ```
//! // The relations to order 3 between -1 and 1 + X + 2X^2 modulo 7, of type (0, 2).
//! let mut basis = [0; 16];
//! let found = relations::basis(7, 2, 3, &[0, 2], &[6, 0, 0, 1, 1, 2], &mut basis)?;
//! assert_eq!(found.least, 2);
//! assert_eq!(relations::row(&basis, 2, 3, 2), [6, 0, 0, 0, 6, 1, 1, 0]);
//! # Ok::<(), relations::Refusal>(())
//! ```
#![deny(missing_docs)]

mod answers;
mod misread;
mod raw;
mod refusal;

pub use answers::Answers;
pub use misread::{Cause, Misread};
use refusal::answered;
pub use refusal::Refusal;

/// The largest modulus.
pub const LARGEST: u32 = 2_147_483_647;
/// How many sets [`bases`] takes at most.
pub const MOST_SETS: u32 = 16;
/// How many words [`read_job`] is lent for the type.
pub const TYPE_WORDS: usize = 8;
/// How many words [`read_job`] is lent for the series.
pub const SERIES_WORDS: usize = 2040;
/// How many bytes [`write_job`] is lent for the file: the largest has 17 blocks of 512.
pub const FILE_BYTES: usize = 8704;
/// How many bytes the text calls are lent.
pub const TEXT_BYTES: usize = 180_809;

/// What a basis call finds beside the basis.
#[derive(Clone, Copy, Debug, PartialEq, Eq)]
pub struct Found {
    /// The number of the row of least shifted degree, the lowest on a tie.
    pub least: u32,
    /// How many of the orders 0 to s - 1 made the set of relations smaller.
    pub count: u32,
}

/// The sizes of a job that was read.
#[derive(Clone, Copy, Debug, PartialEq, Eq)]
pub struct Job {
    /// The modulus.
    pub p: u32,
    /// How many series there are.
    pub n: u32,
    /// The order.
    pub s: u32,
}

/// Whether p is admitted as a modulus. Refusal: 1.
pub fn modulus(p: u32) -> Result<(), Refusal> {
    answered(raw::modulus(p))
}

/// a + b modulo p. Refusals: 1, then 6 for a and for b.
pub fn add(p: u32, a: u32, b: u32) -> Result<u32, Refusal> {
    let mut answer = [0];
    answered(raw::add(p, a, b, &mut answer)).map(|()| answer[0])
}

/// a times b modulo p. Refusals: 1, then 6 for a and for b.
pub fn multiply(p: u32, a: u32, b: u32) -> Result<u32, Refusal> {
    let mut answer = [0];
    answered(raw::multiply(p, a, b, &mut answer)).map(|()| answer[0])
}

/// The inverse of a modulo p. Refusals: 1, 6, and last the inverse of zero.
pub fn invert(p: u32, a: u32) -> Result<u32, Refusal> {
    let mut answer = [0];
    answered(raw::invert(p, a, &mut answer)).map(|()| answer[0])
}

/// Writes the reduced minimal basis of the relations to order s between n series.
///
/// `d` is the type: n words. `series` has n s words, series by series. `basis` has n n (s + 1) words: row by row, entry by
/// entry, s + 1 coefficients each, unused places zero. Refusals: 1, 2, 3, 4, 5, 6.
pub fn basis(p: u32, n: u32, s: u32, d: &[u32], series: &[u32], basis: &mut [u32]) -> Result<Found, Refusal> {
    let mut answer = [0; 2];
    answered(raw::basis(p, n, s, d, series, basis, &mut answer)).map(|()| found(answer))
}

/// The same at the order of the type, s = (d_1 + 1) + .. + (d_n + 1) - 1. The least row is an approximant: its entry i has degree
/// at most d_i. Refusals: 1, 2, 4 for the type, 5, 3 for that order, 4 for the rest, 6.
pub fn approximant(p: u32, n: u32, d: &[u32], series: &[u32], basis: &mut [u32]) -> Result<Found, Refusal> {
    let mut answer = [0; 2];
    answered(raw::approximant(p, n, d, series, basis, &mut answer)).map(|()| found(answer))
}

fn found(answer: [u32; 2]) -> Found {
    Found { least: answer[0], count: answer[1] }
}

/// Writes the bases of many sets of n series that share p, n, s and the type, each as [`basis`] writes it.
///
/// `d` is the type: n words. `series` has sets n s words and `bases` has sets n n (s + 1), both set after set; there may be no sets at all.
/// Refusals of the whole call: 1, 2, 3, 14, 4, 5. A coefficient that is not below p refuses its own set by 6: that set's part of `bases`
/// is as lent, and the others are answered.
///
/// ```
/// use relations::{bases, Found, Refusal};
/// // Two sets modulo 7; in the second a coefficient is not below 7.
/// let series = [6, 0, 0, 1, 1, 2, /* the second */ 6, 0, 0, 1, 1, 7];
/// let mut words = [0; 2 * 16];
/// let answers = bases(7, 2, 3, 2, &[0, 2], &series, &mut words)?;
/// assert_eq!(*answers, [Ok(Found { least: 2, count: 3 }), Err(Refusal::Coefficient)]);
/// assert_eq!(relations::row(&words[..16], 2, 3, 2), [6, 0, 0, 0, 6, 1, 1, 0]);
/// assert_eq!(words[16..], [0; 16]);
/// # Ok::<(), Refusal>(())
/// ```
pub fn bases(p: u32, n: u32, s: u32, sets: u32, d: &[u32], series: &[u32], bases: &mut [u32]) -> Result<Answers, Refusal> {
    let mut words = [0; answers::MOST_WORDS];
    let answers = &mut words[..answers::words_for(sets)];
    answered(raw::bases(p, n, s, sets, d, series, bases, answers)).map(|()| Answers::of(answers))
}

/// Writes the fraction r / t in lowest terms whose series is g to order N = `g.len()`: r = t g to order N, deg r below k, deg t at most
/// N - k, t(0) = 1, and only constants divide both r and t modulo p. There is at most one such pair; for g = 0 it is r = 0, t = 1.
///
/// `r` has k words and `t` has N - k + 1, unused places zero. Refusals: 1, 3 for N, 7, 4, 6, and last 13, which is given where no r and t
/// of these degrees have t(0) not zero and r = t g to order N, and nowhere else.
///
/// ```
/// use relations::{pair, Refusal};
/// // Modulo 7 the series 1 + X + 2X^2 is 1 / (1 - X - X^2) to order 3.
/// let (mut r, mut t) = ([0; 1], [0; 3]);
/// assert_eq!(pair(7, 1, &[1, 1, 2], &mut r, &mut t), Ok(()));
/// assert_eq!((r, t), ([1], [1, 6, 6]));
/// // To order 2 the series X is no constant over a polynomial of degree at most 1.
/// assert_eq!(pair(7, 1, &[0, 1], &mut r, &mut t[..2]), Err(Refusal::NoFraction));
/// ```
pub fn pair(p: u32, k: u32, g: &[u32], r: &mut [u32], t: &mut [u32]) -> Result<(), Refusal> {
    answered(raw::pair(p, k, g, r, t))
}

/// Row i of a basis as a part of the lent slice; the empty part where n, s, i or the length do not fit. A row is never empty.
pub fn row(basis: &[u32], n: u32, s: u32, i: u32) -> &[u32] {
    let mut answer = [0; 2];
    // The answer has the stated two words, and no other test refuses.
    let _ = raw::row(n, s, i, basis, &mut answer);
    let (start, count) = (answer[0] as usize, answer[1] as usize);
    &basis[start..start + count]
}

/// Reads a job file. The first n words of `d` and the first n s words of `series` are written, and no others.
/// Refusals: 8; block by block 9, 10; 1, 2, 3, 11, 12, 5, 6.
pub fn read_job(file: &[u8], d: &mut [u32; TYPE_WORDS], series: &mut [u32; SERIES_WORDS]) -> Result<Job, Refusal> {
    let mut answer = [0; 3];
    answered(raw::read(file, d, series, &mut answer)).map(|()| Job { p: answer[0], n: answer[1], s: answer[2] })
}

/// Reads a text job: p, n, s, the n type entries, then n s coefficients and nothing more, separated by blanks and ends of line; `#` begins a
/// comment that ends with its line. The first n words of `d` and the first n s words of `series` are written, and no others.
pub fn parse_job(text: &[u8], d: &mut [u32; TYPE_WORDS], series: &mut [u32; SERIES_WORDS]) -> Result<Job, Misread> {
    let mut answer = [0; 3];
    match raw::parse(text, d, series, &mut answer) {
        0 => Ok(Job { p: answer[0], n: answer[1], s: answer[2] }),
        status => Err(Misread { line: raw::parse_line(text), cause: Cause::of(status) }),
    }
}

/// Writes a job file to the first bytes of `file` and answers that part. Refusals: 1, 2, 3, 4, 5, 6.
pub fn write_job<'a>(p: u32, n: u32, s: u32, d: &[u32], series: &[u32], file: &'a mut [u8; FILE_BYTES]) -> Result<&'a [u8], Refusal> {
    let mut answer = [0];
    answered(raw::write(p, n, s, d, series, file, &mut answer))?;
    Ok(&file[..512 * answer[0] as usize])
}

/// Writes the text of a basis, as the program `relations` prints it, to the first bytes of `text` and answers that part. The words are
/// taken as they are. Refusals: 2, 3, 4.
pub fn basis_text<'a>(
    p: u32,
    n: u32,
    s: u32,
    d: &[u32],
    basis: &[u32],
    least: u32,
    text: &'a mut [u8; TEXT_BYTES],
) -> Result<&'a str, Refusal> {
    let mut answer = [0];
    answered(raw::text(p, n, s, d, basis, least, text, &mut answer))?;
    Ok(written(text, answer[0]))
}

/// Writes the text of a refusal's number, as the program `relations` prints it.
pub fn refusal_text(number: u32, text: &mut [u8; TEXT_BYTES]) -> &str {
    let mut answer = [0];
    // Both lengths are as stated, and no other test refuses.
    let _ = raw::refused(number, text, &mut answer);
    written(text, answer[0])
}

/// Writes the text that the program `relations` prints for a job file: that of its basis, or that of the reader's refusal.
pub fn job_text<'a>(file: &[u8], text: &'a mut [u8; TEXT_BYTES]) -> &'a str {
    let mut answer = [0];
    // Both lengths are as stated, and no other test refuses.
    let _ = raw::print(file, text, &mut answer);
    written(text, answer[0])
}

fn written(text: &[u8], bytes: u32) -> &str {
    std::str::from_utf8(&text[..bytes as usize]).expect("a text of digits, letters and signs")
}
