//! Prints names whose hashes collide in a hash set of the kit, as it is without a key of its own: COUNT names of 6
//! letters and digits that begin their search at one place of a table of 512 groups, with one tag. Usage: collide COUNT
//! Seconds to run: some 130,000 names are tried for each that is printed.

const INITIAL: u64 = 0x243f_6a88_85a3_08d3;
const MULTIPLIER: u64 = 0x9e37_79b9_7f4a_7c15;
const LETTERS: &[u8; 36] = b"abcdefghijklmnopqrstuvwxyz0123456789";
const LENGTH: usize = 6;

fn folded_multiply(a: u64, b: u64) -> u64 {
    let product = u128::from(a) * u128::from(b);
    product as u64 ^ (product >> 64) as u64
}

/// What the hasher is after one byte more.
fn with_byte(state: u64, byte: u8) -> u64 {
    let b = u64::from(byte);
    folded_multiply(state ^ (b | b << 8 | b << 16), MULTIPLIER ^ 2)
}

/// Whether a name with this hash lies at the place that is looked for.
fn is_chosen(hash: u64) -> bool {
    let folded = (hash ^ hash >> 32) as u32;
    folded & 511 == 0 && folded >> 24 == 1
}

/// Prints the names that go on from here, until enough are printed.
fn search(state: u64, name: &mut Vec<u8>, left: &mut usize) {
    for &letter in LETTERS {
        if *left == 0 {
            return;
        }
        let state = with_byte(state, letter);
        name.push(letter);
        if name.len() < LENGTH {
            search(state, name, left);
        } else if is_chosen(state) {
            println!("{}", String::from_utf8_lossy(name));
            *left -= 1;
        }
        name.pop();
    }
}

fn main() {
    let count = std::env::args().nth(1).and_then(|n| n.parse().ok());
    let mut left = count.expect("usage: collide COUNT");
    let start = folded_multiply(INITIAL ^ LENGTH as u64, MULTIPLIER ^ 16);
    search(start, &mut Vec::new(), &mut left);
}
