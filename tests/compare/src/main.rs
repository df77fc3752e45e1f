//! Runs the library against the reference: random and damaged inputs, then images with each byte damaged, then tags of types around 8000
//! with every other fault, then every cut and every pair of cuts for small partitions, then flags that are spoiled at every cut and mended,
//! then power-ups and arms that count their erases, then updates there and back with cuts in both halves, then sealed headers and headers
//! that are nearly so.
//!
//! compare [CALLS] [SEED]: the number of random calls (default 1,000,000) and the seed. Every number and byte that a call leaves is
//! compared. A difference is printed whole and fails (status 1); so does an answer that is never met, unless the calls are fewer than
//! the default: then that is said, with status 3.
mod back;
mod call;
mod calls;
mod counts;
mod covers;
mod critical;
mod cuts;
mod inputs;
mod layouts;
mod library;
mod mends;
mod random;
mod reference;
mod report;
mod rows;
mod sealed;
mod sheets;
mod tally;
use random::Random;
use report::{catch_signals, Compare};
use tally::Tally;

/// So many calls meet every case.
const ENOUGH: u64 = 1_000_000;

/// The random calls, told of twenty times.
fn random_calls(c: &mut Compare, r: &mut Random, calls: u64) {
    calls::try_largest_firmware(c);
    calls::try_messages(c, r);
    calls::try_corners(c, r);
    let mut told = 0;
    while c.calls < calls {
        calls::try_any(c, r);
        if c.calls * 20 / calls > told {
            told = c.calls * 20 / calls;
            println!("{} calls, no difference", c.calls);
        }
    }
}

fn argument(at: usize, default: u64) -> u64 {
    std::env::args().nth(at).map_or(default, |text| {
        text.parse().unwrap_or_else(|_| {
            eprintln!("compare [CALLS] [SEED]: {text} is not a number");
            std::process::exit(2)
        })
    })
}

fn main() {
    let (calls, seed) = (argument(1, ENOUGH), argument(2, 20_261_115));
    println!(
        "seed {seed}, {calls} random calls, then damaged images, then types around 8000, then cuts, then mending, then counts, \
         then there and back, then sealed headers"
    );
    catch_signals();
    let mut r = Random(seed);
    let mut c = Compare { seed, calls: 0, counted: [0; 2], tally: Tally::default() };
    random_calls(&mut c, &mut r, calls);
    let random = c.calls;
    let answers = std::mem::take(&mut c.tally);
    println!("answers of the random calls:");
    answers.print();
    let covers = covers::try_covers(&mut c, &mut r);
    let damaged = c.calls;
    let covered = std::mem::take(&mut c.tally);
    println!("answers to images with a damaged byte, or with a digest over something else:");
    covered.print();
    let critical = critical::try_critical(&mut c, &mut r);
    let understood = c.calls;
    let types = std::mem::take(&mut c.tally);
    println!("answers to tags of types around 8000:");
    types.print();
    let mut tried = cuts::try_every_cut(&mut c, &mut r);
    cuts::try_lists(&mut c, &mut r, &mut tried);
    let cut = c.calls;
    println!("answers of the power-ups with cuts:");
    std::mem::take(&mut c.tally).print();
    let mends = mends::try_mends(&mut c, &mut r);
    let mended = c.calls;
    let mending = std::mem::take(&mut c.tally);
    println!("answers of mending, and of the power-ups before and behind it:");
    mending.print();
    let counts = counts::try_counts(&mut c, &mut r);
    let counted = c.calls;
    let counting = std::mem::take(&mut c.tally);
    println!("answers of the power-ups and arms that count erases, and of the power-ups beside them:");
    counting.print();
    let trips = back::try_back(&mut c, &mut r);
    let there_and_back = c.calls;
    let back = std::mem::take(&mut c.tally);
    println!("answers there and back:");
    back.print();
    let sealed = sealed::try_sealed(&mut c, &mut r);
    println!("answers by the sealed profile, and of the reader and the writers beside it:");
    c.tally.print();
    println!(
        "seed {seed}: {random} random calls, {} on damaged images, {} on types around 8000, {} power-ups with cuts, {} around mending, \
         {} around erase counts, {} there and back, {} by the sealed profile",
        damaged - random,
        understood - damaged,
        cut - understood,
        mended - cut,
        counted - mended,
        there_and_back - counted,
        c.calls - there_and_back
    );
    covers.print();
    critical.print();
    println!("{} single cuts, {} pairs of cuts, {} lists of power-ups", tried.single_cuts, tried.pairs, tried.lists);
    println!("{} exchanges to mend, {} mended", mends.exchanges, mends.mended);
    println!(
        "{} power-ups and {} arms with erase counts in all; {} single cuts, {} pairs of cuts, {} lists, {} flashes with every budget",
        c.counted[0], c.counted[1], counts.tried.single_cuts, counts.tried.pairs, counts.tried.lists, counts.flashes
    );
    println!(
        "{} updates there and back: {} single cuts, {} pairs of a cut in each half, {} lists",
        trips.updates, trips.tried.single_cuts, trips.tried.pairs, trips.tried.lists
    );
    sealed.print();
    let never = [
        covered.missing_of_covers(),
        types.missing_of_critical(),
        mending.missing_of_mends(),
        counting.missing_of_counts(),
        back.missing_of_back(),
        c.tally.missing_of_sealed(),
    ]
    .concat();
    if !never.is_empty() {
        println!(
            "no difference, but NEVER MET with damaged images, types around 8000, in mending, in counts, there and back or with sealed \
             headers:\n  {}",
            never.join("\n  ")
        );
        std::process::exit(1);
    }
    let missing = answers.missing();
    if !missing.is_empty() && calls < ENOUGH {
        println!("no difference, but {calls} random calls are too few: {} cases were not met that {ENOUGH} meet", missing.len());
        std::process::exit(3);
    }
    if !missing.is_empty() {
        println!("no difference, but NEVER MET in the random calls:\n  {}", missing.join("\n  "));
        std::process::exit(1);
    }
    println!("no difference");
}
