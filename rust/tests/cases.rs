//! The worked numbers of the scope paper, every refusal, and properties of drawn jobs.
use relations::{
    add, approximant, bases, basis, basis_text, invert, job_text, modulus, multiply, pair, parse_job, read_job, refusal_text, row,
    write_job, Cause, Found, Job, Misread, Refusal, FILE_BYTES, LARGEST, MOST_SETS, SERIES_WORDS, TEXT_BYTES, TYPE_WORDS,
};

const UNTOUCHED: u32 = 4_000_000_000;

fn found(least: u32, count: u32) -> Result<Found, Refusal> {
    Ok(Found { least, count })
}

fn size(n: u32, s: u32) -> usize {
    (n * n * (s + 1)) as usize
}

/// The basis of some series, beside the answer.
fn solve(p: u32, n: u32, s: u32, shift: &[u32], series: &[u32]) -> (Result<Found, Refusal>, Vec<u32>) {
    let mut words = vec![UNTOUCHED; size(n, s)];
    let answer = basis(p, n, s, shift, series, &mut words);
    (answer, words)
}

#[test]
fn worked_bases() {
    assert_eq!(solve(7, 2, 3, &[0, 2], &[6, 0, 0, 1, 1, 2]), (found(2, 3), vec![6, 1, 0, 0, 6, 2, 0, 0, 6, 0, 0, 0, 6, 1, 1, 0]));
    assert_eq!(solve(7, 2, 1, &[0, 0], &[1, 1]), (found(2, 1), vec![0, 1, 0, 0, 6, 0, 1, 0]));
    assert_eq!(solve(7, 2, 1, &[0, 1], &[1, 1]), (found(1, 1), vec![1, 0, 6, 0, 0, 0, 0, 1]));
    assert_eq!(solve(2, 3, 1, &[0, 0, 0], &[1, 1, 1]), (found(2, 1), vec![0, 1, 0, 0, 0, 0, 1, 0, 1, 0, 0, 0, 1, 0, 0, 0, 1, 0]));
    assert_eq!(solve(7, 1, 2, &[0], &[0, 5]), (found(1, 1), vec![0, 1, 0]));
    assert_eq!(solve(7, 2, 2, &[0, 0], &[0; 4]), (found(1, 0), vec![1, 0, 0, 0, 0, 0, 0, 0, 0, 1, 0, 0]));
    assert_eq!(solve(7, 1, 0, &[0], &[]), (found(1, 0), vec![1]));
}

#[test]
fn worked_approximant_and_pairs() {
    let mut words = [UNTOUCHED];
    assert_eq!(approximant(7, 1, &[0], &[], &mut words), found(1, 0));
    assert_eq!(words, [1]);
    let (mut r, mut t) = ([UNTOUCHED; 1], [UNTOUCHED; 3]);
    assert_eq!(pair(7, 1, &[1, 1, 2], &mut r, &mut t), Ok(()));
    assert_eq!((r, t), ([1], [1, 6, 6]));
    let (mut r, mut t) = ([UNTOUCHED; 1], [UNTOUCHED; 2]);
    assert_eq!(pair(7, 1, &[0, 1], &mut r, &mut t), Err(Refusal::NoFraction));
    assert_eq!((r, t), ([UNTOUCHED], [UNTOUCHED; 2]));
    let (mut r, mut t) = ([UNTOUCHED; 2], [UNTOUCHED; 3]);
    assert_eq!(pair(7, 2, &[0; 4], &mut r, &mut t), Ok(()));
    assert_eq!((r, t), ([0; 2], [1, 0, 0]));
}

#[test]
fn field() {
    assert_eq!(invert(7, 3), Ok(5));
    assert_eq!(add(7, 6, 5), Ok(4));
    assert_eq!(multiply(LARGEST, LARGEST - 1, LARGEST - 1), Ok(1));
    for p in [2, LARGEST] {
        assert_eq!(modulus(p), Ok(()));
    }
    for p in [0, 1, 4, 2_147_117_569, LARGEST + 1] {
        assert_eq!(modulus(p), Err(Refusal::Modulus));
        assert_eq!(invert(p, 0), Err(Refusal::Modulus));
    }
    assert_eq!(add(7, 7, 0), Err(Refusal::Coefficient));
    assert_eq!(multiply(7, 0, 7), Err(Refusal::Coefficient));
    assert_eq!(invert(7, 7), Err(Refusal::Coefficient));
    assert_eq!(invert(7, 0), Err(Refusal::InverseOfZero));
}

/// Each refusal of the basis call, alone and before every later one; the basis is as lent.
#[test]
fn basis_refusals() {
    let jobs: [(Refusal, u32, u32, u32, &[u32], &[u32], usize); 9] = [
        (Refusal::Modulus, 9, 0, 256, &[256], &[9], 0),
        (Refusal::SeriesCount, 7, 0, 256, &[256], &[9], 0),
        (Refusal::SeriesCount, 7, 9, 256, &[256], &[9], 0),
        (Refusal::Order, 7, 2, 256, &[256], &[9], 0),
        (Refusal::Length, 7, 2, 1, &[256], &[9, 9], 8),
        (Refusal::Length, 7, 2, 1, &[256, 0], &[9], 8),
        (Refusal::Length, 7, 2, 1, &[256, 0], &[9, 9], 7),
        (Refusal::TypeEntry, 7, 2, 1, &[0, 256], &[9, 9], 8),
        (Refusal::Coefficient, 7, 2, 1, &[0, 255], &[0, 7], 8),
    ];
    for (refusal, p, n, s, shift, series, words) in jobs {
        let mut lent = vec![UNTOUCHED; words];
        assert_eq!(basis(p, n, s, shift, series, &mut lent), Err(refusal));
        assert!(lent.iter().all(|&w| w == UNTOUCHED));
    }
}

/// Each set is answered as the single call answers it; a refused one leaves its part of the bases as lent.
fn assert_as_alone(p: u32, n: u32, s: u32, sets: u32, shift: &[u32], series: &[u32]) {
    let mut words = vec![UNTOUCHED; sets as usize * size(n, s)];
    let answers = bases(p, n, s, sets, shift, series, &mut words).unwrap();
    assert_eq!(answers.len(), sets as usize);
    let length = (n * s) as usize;
    for (j, (answer, words)) in answers.iter().zip(words.chunks(size(n, s))).enumerate() {
        assert_eq!((*answer, words.to_vec()), solve(p, n, s, shift, &series[j * length..(j + 1) * length]));
    }
}

#[test]
fn many_sets() {
    let c1 = [6, 0, 0, 1, 1, 2];
    let (answer, words) = solve(7, 2, 3, &[0, 2], &c1);
    let mut lent = [UNTOUCHED; 3 * 16];
    let answers = bases(7, 2, 3, 3, &[0, 2], &[c1, [6, 0, 0, 1, 1, 7], c1].concat(), &mut lent).unwrap();
    assert_eq!(*answers, [answer, Err(Refusal::Coefficient), answer]);
    assert_eq!(lent[..], [&words[..], &[UNTOUCHED; 16], &words].concat());
    assert_eq!(format!("{:?}", answers), format!("{:?}", [answer, Err(Refusal::Coefficient), answer]));

    let mut draw = Draw(2_330_089_441);
    for sets in 0..=MOST_SETS {
        let mut series: Vec<u32> = (0..sets * 10).map(|_| draw.below(31)).collect();
        assert_as_alone(31, 2, 0, sets, &[0, 2], &[]);
        assert_as_alone(31, 2, 5, sets, &[0, 2], &series);
        for j in 0..sets as usize {
            let mut spoiled = series.clone();
            spoiled[10 * j + 9 * (j % 2)] = 31;
            assert_as_alone(31, 2, 5, sets, &[0, 2], &spoiled);
        }
        series.iter_mut().step_by(10).for_each(|c| *c = 31);
        assert_as_alone(31, 2, 5, sets, &[0, 2], &series);
    }
}

/// Each refusal of the whole call, alone and before every later one; the bases are as lent.
#[test]
fn many_sets_refusals() {
    let jobs: [(Refusal, u32, u32, u32, u32, &[u32], &[u32], usize); 14] = [
        (Refusal::Modulus, 9, 0, 256, 17, &[256], &[9], 0),
        (Refusal::SeriesCount, 7, 0, 256, 17, &[256], &[9], 0),
        (Refusal::SeriesCount, 7, 9, 256, 17, &[256], &[9], 0),
        (Refusal::Order, 7, 2, 256, 17, &[256], &[9], 0),
        (Refusal::SetCount, 7, 2, 1, 17, &[256], &[9], 0),
        (Refusal::SetCount, 7, 2, 1, u32::MAX, &[256], &[9], 0),
        (Refusal::SetCount, 7, 2, 1, 17, &[0, 0], &[0; 34], 136),
        (Refusal::Length, 7, 2, 1, 2, &[256], &[9; 4], 16),
        (Refusal::Length, 7, 2, 1, 2, &[256, 0], &[9; 3], 16),
        (Refusal::Length, 7, 2, 1, 2, &[256, 0], &[9; 4], 15),
        (Refusal::Length, 7, 2, 1, 0, &[256, 0], &[], 8),
        (Refusal::TypeEntry, 7, 2, 1, 2, &[0, 256], &[9; 4], 16),
        (Refusal::TypeEntry, 7, 2, 1, 0, &[0, 256], &[], 0),
        (Refusal::TypeEntry, 7, 2, 1, 16, &[256, 0], &[0; 32], 128),
    ];
    for (refusal, p, n, s, sets, shift, series, words) in jobs {
        let mut lent = vec![UNTOUCHED; words];
        assert_eq!(bases(p, n, s, sets, shift, series, &mut lent), Err(refusal));
        assert!(lent.iter().all(|&w| w == UNTOUCHED));
    }
}

#[test]
fn approximant_and_pair_refusals() {
    let mut lent = [UNTOUCHED; 8];
    assert_eq!(approximant(7, 2, &[128, 127], &[], &mut lent), Err(Refusal::Order));
    assert_eq!(approximant(7, 2, &[128], &[], &mut lent), Err(Refusal::Length));
    assert_eq!(approximant(7, 2, &[256, 0], &[], &mut lent), Err(Refusal::TypeEntry));
    assert_eq!(approximant(7, 2, &[0, 0], &[7], &mut lent[..7]), Err(Refusal::Length));
    assert_eq!(approximant(7, 2, &[0, 0], &[7, 0], &mut lent), Err(Refusal::Coefficient));
    let mut t = [UNTOUCHED; 2];
    assert_eq!(pair(8, 0, &[0; 256], &mut lent, &mut t), Err(Refusal::Modulus));
    assert_eq!(pair(7, 0, &[0; 256], &mut lent, &mut t), Err(Refusal::Order));
    assert_eq!(pair(7, 0, &[], &mut lent, &mut t), Err(Refusal::FractionSize));
    assert_eq!(pair(7, 3, &[0, 9], &mut lent, &mut t), Err(Refusal::FractionSize));
    assert_eq!(pair(7, 1, &[0, 9], &mut lent, &mut t), Err(Refusal::Length));
    assert_eq!(pair(7, 1, &[0, 9], &mut lent[..1], &mut t), Err(Refusal::Coefficient));
    assert_eq!(pair(11, 1, &[0, 9], &mut lent[..1], &mut t), Err(Refusal::NoFraction));
    assert!(lent.iter().chain(&t).all(|&w| w == UNTOUCHED));
}

#[test]
fn rows() {
    let words: Vec<u32> = (0..12).collect();
    assert_eq!(row(&words, 2, 2, 1), &words[..6]);
    assert_eq!(row(&words, 2, 2, 2), &words[6..]);
    for (n, s, i) in [(0, 2, 1), (9, 2, 1), (2, 256, 1), (2, 2, 0), (2, 2, 3), (2, 1, 1), (u32::MAX, u32::MAX, u32::MAX)] {
        assert!(row(&words, n, s, i).is_empty());
    }
}

/// Seals a block after a change: checks A and B over its first 126 words.
fn seal(block: &mut [u8]) {
    let (mut a, mut b) = (1u32, 0u32);
    for word in block[..504].chunks(4) {
        a = a.wrapping_add(u32::from_le_bytes([word[0], word[1], word[2], word[3]]));
        b = b.wrapping_add(a);
    }
    block[504..508].copy_from_slice(&a.to_le_bytes());
    block[508..].copy_from_slice(&b.to_le_bytes());
}

fn read(file: &[u8]) -> (Result<Job, Refusal>, [u32; TYPE_WORDS], [u32; SERIES_WORDS]) {
    let (mut shift, mut series) = ([UNTOUCHED; TYPE_WORDS], [UNTOUCHED; SERIES_WORDS]);
    let answer = read_job(file, &mut shift, &mut series);
    (answer, shift, series)
}

#[test]
fn job_files() {
    let mut lent = [0xa5; FILE_BYTES];
    let file = write_job(7, 2, 3, &[0, 2], &[6, 0, 0, 1, 1, 2], &mut lent).unwrap().to_vec();
    assert_eq!(file.len(), 512);
    assert!(lent[512..].iter().all(|&b| b == 0xa5));
    let (answer, shift, series) = read(&file);
    assert_eq!(answer, Ok(Job { p: 7, n: 2, s: 3 }));
    assert_eq!(&shift[..3], [0, 2, UNTOUCHED]);
    assert_eq!(&series[..7], [6, 0, 0, 1, 1, 2, UNTOUCHED]);
    assert_eq!(read(&file[..511]).0, Err(Refusal::FileLength));
    assert_eq!(read(&[]).0, Err(Refusal::FileLength));

    // A word of the block set, with or without new checks.
    let spoiled = |at: usize, word: u32, sealed: bool| {
        let mut file = file.clone();
        file[4 * at..4 * at + 4].copy_from_slice(&word.to_le_bytes());
        if sealed {
            seal(&mut file);
        }
        let (answer, shift, series) = read(&file);
        assert!(shift.iter().chain(&series).all(|&w| w == UNTOUCHED));
        answer.unwrap_err()
    };
    assert_eq!(spoiled(0, 1, true), Refusal::BlockNumber);
    assert_eq!(spoiled(126, 0, false), Refusal::BlockCheck);
    assert_eq!(spoiled(1, 9, true), Refusal::Modulus);
    assert_eq!(spoiled(2, 9, true), Refusal::SeriesCount);
    assert_eq!(spoiled(3, 256, true), Refusal::Order);
    assert_eq!(spoiled(3, 255, true), Refusal::BlockCount);
    assert_eq!(spoiled(125, 1, true), Refusal::SpareWord);
    assert_eq!(spoiled(5, 256, true), Refusal::TypeEntry);
    assert_eq!(spoiled(11, 7, true), Refusal::Coefficient);

    let mut lent = [0xa5; FILE_BYTES];
    assert_eq!(write_job(7, 2, 3, &[0, 2], &[7; 6], &mut lent), Err(Refusal::Coefficient));
    assert_eq!(write_job(7, 2, 3, &[0, 2], &[0; 5], &mut lent), Err(Refusal::Length));
    assert!(lent.iter().all(|&b| b == 0xa5));
}

#[test]
fn texts() {
    let mut lent = [0xa5; TEXT_BYTES];
    let (answer, words) = solve(7, 2, 3, &[0, 2], &[6, 0, 0, 1, 1, 2]);
    let text = basis_text(7, 2, 3, &[0, 2], &words, answer.unwrap().least, &mut lent);
    assert_eq!(text, Ok("relations 7 2 3 type 0 2\nrow 1 1 1 | 6 1 | 6 2\nrow 2 2 0 | 6 | 6 1 1\nleast 2\n"));
    let mut lent = [0xa5; TEXT_BYTES];
    assert_eq!(basis_text(7, 9, 256, &[0, 2], &words, 2, &mut lent), Err(Refusal::SeriesCount));
    assert_eq!(basis_text(7, 2, 256, &[0], &words, 2, &mut lent), Err(Refusal::Order));
    assert_eq!(basis_text(7, 2, 3, &[0], &words, 2, &mut lent), Err(Refusal::Length));
    assert!(lent.iter().all(|&b| b == 0xa5));
    assert_eq!(refusal_text(12, &mut lent), "refused 12\n");
    let mut file = [0; FILE_BYTES];
    let file = write_job(7, 2, 3, &[0, 2], &[6, 0, 0, 1, 1, 2], &mut file).unwrap();
    assert_eq!(job_text(file, &mut lent), "relations 7 2 3 type 0 2\nrow 1 1 1 | 6 1 | 6 2\nrow 2 2 0 | 6 | 6 1 1\nleast 2\n");
    assert_eq!(job_text(&file[..511], &mut lent), "refused 8\n");
}

#[test]
fn text_jobs() {
    let parse = |text: &str| {
        let (mut shift, mut series) = ([UNTOUCHED; TYPE_WORDS], [UNTOUCHED; SERIES_WORDS]);
        let answer = parse_job(text.as_bytes(), &mut shift, &mut series);
        if answer.is_err() {
            assert!(shift.iter().chain(&series).all(|&w| w == UNTOUCHED));
        }
        (answer, shift, series)
    };
    let (answer, shift, series) = parse("# case C1\n7 2 3\n0 2 # the type\n6 0 0\n1 1 2\n");
    assert_eq!(answer, Ok(Job { p: 7, n: 2, s: 3 }));
    assert_eq!(&shift[..3], [0, 2, UNTOUCHED]);
    assert_eq!(&series[..7], [6, 0, 0, 1, 1, 2, UNTOUCHED]);
    let wrong = |text: &str, line: usize, cause: Cause| assert_eq!(parse(text).0, Err(Misread { line, cause }));
    wrong("", 1, Cause::EndsEarly);
    wrong("7 2\n\n", 3, Cause::EndsEarly);
    wrong("7\n2x", 2, Cause::NotNumber);
    wrong("7 4294967296", 1, Cause::TooLarge);
    wrong("7 1 0\n0\n\n1", 4, Cause::TooMany);
    wrong("\n9", 2, Cause::Refused(Refusal::Modulus));
    wrong("7 9", 1, Cause::Refused(Refusal::SeriesCount));
    wrong("7 1\n256", 2, Cause::Refused(Refusal::Order));
    wrong("7 1 0 256", 1, Cause::Refused(Refusal::TypeEntry));
    wrong("7 1 1 0\n7", 2, Cause::Refused(Refusal::Coefficient));
    assert_eq!(parse("\nx").0.unwrap_err().to_string(), "line 2: this word is no number");
}

#[test]
fn refusals_in_words() {
    let mut texts: Vec<String> = (1..=14).map(|k| Refusal::from_number(k).unwrap().to_string()).collect();
    for (k, text) in texts.iter().enumerate() {
        assert!(text.starts_with(&format!("refused {}: ", k + 1)));
        assert_eq!(Refusal::from_number(k as u32 + 1).unwrap().number(), Some(k as u32 + 1));
    }
    texts.sort();
    texts.dedup();
    assert_eq!(texts.len(), 14);
    assert_eq!((Refusal::from_number(0), Refusal::from_number(15)), (None, None));
    assert_eq!(Refusal::InverseOfZero.to_string(), "zero has no inverse");
    assert_eq!(Refusal::InverseOfZero.number(), None);
}

/// The generator of docs/REFERENCE.md.
struct Draw(u64);

impl Draw {
    fn below(&mut self, bound: u32) -> u32 {
        self.0 = self.0 * 48271 % 140_737_488_355_213;
        (self.0 % u64::from(bound)) as u32
    }
}

/// The rows of drawn jobs are relations, and their pivot degrees add up to the count.
#[test]
fn drawn_jobs() {
    let mut draw = Draw(2_330_089_441);
    for _ in 0..300 {
        let p = [2, 3, 7, 65_537, LARGEST][draw.below(5) as usize];
        let (n, s) = (1 + draw.below(8), draw.below(20));
        let shift: Vec<u32> = (0..n).map(|_| draw.below(12)).collect();
        let series: Vec<u32> = (0..n * s).map(|_| draw.below(p)).collect();
        let (answer, words) = solve(p, n, s, &shift, &series);
        let width = s as usize + 1;
        let mut pivots = 0;
        for i in 1..=n {
            let entries: Vec<&[u32]> = row(&words, n, s, i).chunks(width).collect();
            pivots += entries[i as usize - 1].iter().rposition(|&c| c != 0).expect("a pivot entry is not zero");
            for at in 0..s as usize {
                let mut sum = 0;
                for (k, entry) in entries.iter().enumerate() {
                    for t in 0..=at {
                        sum = (sum + u64::from(entry[t]) * u64::from(series[k * s as usize + at - t])) % u64::from(p);
                    }
                }
                assert_eq!(sum, 0);
            }
        }
        assert_eq!(answer.unwrap().count as usize, pivots);
    }
}
