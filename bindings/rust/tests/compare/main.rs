//! Compares the archive with a second implementation of docs/SCOPE.md, on every pair of bytes and of numbers of 12 bits and on
//! millions of seeded inputs. Each part prints how many comparisons it made, and shows differences with their input and both
//! answers. The last line has the totals. The exit status is 1 if anything differed or a refusal was never met. HIGHVANE_SEED, a
//! number, gives other inputs.

mod figures;
mod layers;
mod meaning;
mod products;
mod random;
mod refused;
mod rows;
mod scores;
mod singles;
mod stores;
mod tally;
mod transcripts;

use std::process::ExitCode;
use std::sync::Mutex;
use std::sync::atomic::{AtomicUsize, Ordering};
use std::{env, thread};

use highvane::Refusal;

use random::Random;
use tally::Tally;

/// What a part compares, how often it is run, each time with another seed, and the part itself.
type Part = (&'static str, usize, fn(&mut Random, &mut Tally));

const PARTS: [Part; 32] = [
    ("figures of docs/SCOPE.md", 1, figures::all),
    ("products: all byte pairs, every design and setting, every width", 1, products::byte_pairs),
    ("products: all pairs at width 12, design 1", 1, products::twelve_bit_pairs::<1>),
    ("products: all pairs at width 12, design 2", 1, products::twelve_bit_pairs::<2>),
    ("products: all pairs at width 12, design 3 with 1, 2 and 12 stages", 1, products::twelve_bit_pairs::<3>),
    ("products: all pairs at width 12, design 4 with 1, 6 and 11 kept bits", 1, products::twelve_bit_pairs::<4>),
    ("products: all pairs at width 12, design 5 with 1, 6 and 11 kept bits", 1, products::twelve_bit_pairs::<5>),
    ("products: every design, width and setting near the known ones", 1, products::numbers),
    ("products: seeded", 10, products::seeded),
    ("byte table: all pairs", 1, products::byte_table),
    ("rows: 0 to 40 pairs, every design and setting", 12, rows::short),
    ("rows: at the bound and beside it", 2, rows::at_the_bound),
    ("rows: equal residues, every design and setting", 2, rows::with_equal_residues),
    ("rows: 4,095 to 4,098 pairs, every design and setting", 2, rows::long),
    ("rows: damaged", 4, rows::damaged),
    ("stores: all small ones", 1, stores::small),
    ("stores: seeded", 2, stores::seeded),
    ("layers: 0 to 70 rows, every design and setting", 4, layers::short),
    ("layers: 0, 1, 15, 16, 17, 32 and 33 rows, 1 and 4,096 columns, every design", 2, layers::at_the_borders),
    ("layers: one column and more than 4,090 rows, every design and setting", 1, layers::one_column),
    ("layers: 4,095 and 4,096 columns, every design and setting", 2, layers::long),
    ("layers: every set of faults", 4, layers::faults),
    ("layers: damaged", 4, layers::damaged),
    ("scores: every shift, beside every power", 1, scores::edges),
    ("scores: seeded", 2, scores::seeded),
    ("singles: all exponent fields and signs", 1, singles::exponents),
    ("singles: seeded", 4, singles::seeded),
    ("singles: as floats", 1, singles::as_floats),
    ("records: every kind and length of body", 1, transcripts::kinds),
    ("records: seeded", 4, transcripts::seeded),
    ("records: at the limit of the input", 1, transcripts::limit),
    ("refused answers: every other field is 0", 2, refused::fields),
];

fn main() -> ExitCode {
    let seed = match env::var("HIGHVANE_SEED") {
        Ok(text) => text.parse().expect("HIGHVANE_SEED must be a whole number below 2^64"),
        Err(_) => 1,
    };
    let mut total = Tally::default();
    for ((name, ..), tally) in PARTS.iter().zip(run(seed)) {
        println!("{name}: {} comparisons, {} wrong", tally.compared, tally.wrong);
        for difference in &tally.shown {
            println!("    {difference}");
        }
        total.add(tally);
    }
    let missed: Vec<_> = Refusal::ALL.iter().filter(|refusal| total.reached[refusal.number() as usize] == 0).collect();
    for refusal in &missed {
        println!("no input was refused with {}: {refusal}", refusal.number());
    }
    println!("rust: {} comparisons, {} wrong", total.compared, total.wrong);
    if total.wrong == 0 && missed.is_empty() { ExitCode::SUCCESS } else { ExitCode::FAILURE }
}

/// Runs all parts on all processors, and gives the tally of each. The seed of a run depends on its place in the list alone, so
/// the inputs are the same on any number of processors.
fn run(seed: u64) -> Vec<Tally> {
    let jobs: Vec<usize> = PARTS.iter().enumerate().flat_map(|(at, part)| vec![at; part.1]).collect();
    let next = AtomicUsize::new(0);
    let tallies: Mutex<Vec<Tally>> = Mutex::new(PARTS.iter().map(|_| Tally::default()).collect());
    thread::scope(|scope| {
        for _ in 0..thread::available_parallelism().map_or(1, usize::from) {
            scope.spawn(|| {
                loop {
                    let job = next.fetch_add(1, Ordering::Relaxed);
                    let Some(&part) = jobs.get(job) else { break };
                    let mut random = Random((seed << 32) + job as u64);
                    let mut tally = Tally::default();
                    PARTS[part].2(&mut random, &mut tally);
                    tallies.lock().expect("no part stops while it adds")[part].add(tally);
                }
            });
        }
    });
    tallies.into_inner().expect("no part stops while it adds")
}
