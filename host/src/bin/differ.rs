//! The program `differ`: random chains on the archive and on the second program, side by side.
//!   differ SEED CHAINS        plays them all, and stops at the first difference
//!   differ alone SEED CHAIN   plays one chain, and tells every call

use host::boards::ARCHIVE;
use host::differ::counts::Counts;
use host::differ::make::play_chain;
use std::process::ExitCode;

const USAGE: &str = "usage: differ SEED CHAINS, or differ alone SEED CHAIN";

/// Plays the chains from 0 on. The error says where the first difference is.
fn play_all(seed: u64, chains: u64) -> Result<(), String> {
    let mut counts = Counts::default();
    for n in 0..chains {
        play_chain(&ARCHIVE, seed, n, &mut counts, false).map_err(|what| {
            format!(
                "seed {seed}, chain {n}, {what}\n  to run it alone: tools/differ alone {seed} {n}"
            )
        })?;
    }
    print!("{}", counts.text());
    if let Some(row) = counts.strange().first() {
        return Err(format!("seed {seed}: a number or code that no rule gives: {row}"));
    }
    for row in counts.never() {
        println!("never reached: {row}");
    }
    println!("differ: seed {seed}: {chains} chains, {} calls, no difference", counts.calls);
    Ok(())
}

fn play_alone(seed: u64, chain: u64) -> Result<(), String> {
    play_chain(&ARCHIVE, seed, chain, &mut Counts::default(), true)
        .map_err(|what| format!("seed {seed}, chain {chain}, {what}"))?;
    println!("differ: seed {seed}: chain {chain}, no difference");
    Ok(())
}

fn main() -> ExitCode {
    let words: Vec<String> = std::env::args().skip(1).collect();
    let (alone, numbers) = match words.as_slice() {
        [word, rest @ ..] if word == "alone" => (true, rest),
        all => (false, all),
    };
    let numbers: Vec<Option<u64>> = numbers.iter().map(|word| word.parse().ok()).collect();
    let [Some(seed), Some(number)] = numbers[..] else {
        eprintln!("{USAGE}");
        return ExitCode::from(2);
    };
    let played = if alone { play_alone(seed, number) } else { play_all(seed, number) };
    match played {
        Ok(()) => ExitCode::SUCCESS,
        Err(what) => {
            eprintln!("differ: {what}");
            ExitCode::FAILURE
        }
    }
}
