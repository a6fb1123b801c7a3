//! The relations to order 3 between -1 and 1 + X + 2X^2 modulo 7, of type (0, 2).
use relations::{basis, row, Refusal};

const P: u32 = 7;
const N: u32 = 2;
const S: u32 = 3;

fn main() -> Result<(), Refusal> {
    let shift = [0, 2];
    let series = [6, 0, 0, 1, 1, 2];
    let mut words = [0; (N * N * (S + 1)) as usize];

    let found = basis(P, N, S, &shift, &series, &mut words)?;
    for i in 1..=N {
        print!("row {}:", i);
        for entry in row(&words, N, S, i).chunks(S as usize + 1) {
            print!(" |");
            entry.iter().for_each(|c| print!(" {}", c));
        }
        println!();
    }
    println!("least {}, {} orders made the set of relations smaller", found.least, found.count);

    // A composite modulus is refused, and says so in words.
    let refusal = basis(9, N, S, &shift, &series, &mut words).unwrap_err();
    println!("modulo 9: {}", refusal);
    Ok(())
}
