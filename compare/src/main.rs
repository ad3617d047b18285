//! Random lists of calls to the proved library and to the second program:
//! after every call the number, every byte of the record and every byte of
//! the reply are compared, and what the loading call makes of the record and of
//! others. Lists of plain requests are also held to document 02, (n).
//! `cube-compare [CALLS [SEED]]`.

mod changes;
mod input;
mod loads;
mod no_waste;
mod pair;
mod seen;
mod subcubes;
mod waste;
mod wholes;

use cube_reference::drawn::List;
use cube_reference::gen::Log;
use cube_reference::record::{dimension, SIZE};
use cube_reference::rng::Rng;

use pair::Pair;
use seen::Seen;

const CALLS: u64 = 300_000;
const SEED: u64 = 1;

fn main() {
    let mut words = std::env::args().skip(1).map(|w| w.parse().expect("a number"));
    let calls = words.next().unwrap_or(CALLS);
    let first = words.next().unwrap_or(SEED);
    if let Err(what) = compare(calls, first) {
        println!("{what}");
        std::process::exit(1);
    }
}

/// Lists of any calls, until there are so many calls, and of plain requests.
fn compare(calls: u64, first: u64) -> Result<(), String> {
    waste::runs()?;
    let (mut made, mut seed) = (0, first);
    let (mut seen, mut no_waste) = (Seen::default(), no_waste::Seen::default());
    while made < calls {
        made += list(seed, &mut seen).map_err(|what| format!("seed {seed}: {what}"))?;
        no_waste::lists(seed, &mut no_waste)
            .map_err(|what| format!("seed {seed}, no waste: {what}"))?;
        seed += 1;
    }
    println!(
        "{made} calls of {} lists from seed {first} compared, no difference; {seen}",
        seed - first
    );
    println!("{no_waste}");
    let rare = || seen.rare().or_else(|| no_waste.rare());
    match (made >= CALLS).then(rare).flatten() {
        Some(rare) => Err(rare),
        None => Ok(()),
    }
}

/// One list of calls; the seed's remainder by 11 is n. Of ten lists one starts at
/// a damaged record, six at one that perhaps doesn't load, two at one that does,
/// and one at a fresh one.
fn list(seed: u64, seen: &mut Seen) -> Result<u64, String> {
    let n = (seed % 11) as u32;
    let rng = &mut Rng::new(seed ^ 0x5ca1_ab1e);
    let mut pair = start(rng, n)?;
    seen.add_start(&pair.reference);
    let loads = pair.load()? == 0;
    seen.loads.add_start(&pair.cube(n), loads);
    let count = 60 + u64::from(rng.below(400));
    let mut log = Log::new(seed, count, &pair.cube(n));
    let mut list = List::default();
    for place in 0..count {
        let before = pair.cube(n);
        let frame = input::bent(rng, &log.next(&before));
        let reply = input::reply(rng);
        let number = pair.call(&frame, &reply).map_err(|what| {
            format!(
                "call {place}, frame {:02x?}, reply of {}: {what}",
                &frame[..frame.len().min(24)],
                reply.len()
            )
        })?;
        seen.add(&frame, number);
        list.add(&frame, number, &before, &pair.cube(n));
        loads::after_call(rng, &pair, n, loads, &mut seen.loads)
            .map_err(|what| format!("call {place}, load: {what}"))?;
    }
    seen.drawn[dimension(&pair.cube(n)) as usize] += list.drawn;
    Ok(count)
}

fn start(rng: &mut Rng, n: u32) -> Result<Pair, String> {
    match rng.below(10) {
        0 => {
            let record = input::valid_record(rng, n);
            Ok(Pair::new(input::damaged(rng, record)))
        }
        1..7 => Ok(Pair::new(input::valid_record(rng, n).to_vec())),
        7..9 => Ok(Pair::new(subcubes::loaded(rng, n).to_vec())),
        _ => fresh(rng, n),
    }
}

/// Set-up on any buffer: refused ones first, which write nothing.
fn fresh(rng: &mut Rng, n: u32) -> Result<Pair, String> {
    let above = rng.pick(&[11, 12, 256, 266, 65546, u32::MAX]);
    let mut wrong = Pair::new(input::bytes(rng, SIZE + 1));
    set_up(&mut wrong, n)?;
    set_up(&mut wrong, above)?;
    let mut pair = Pair::new(input::bytes(rng, SIZE));
    set_up(&mut pair, above)?;
    set_up(&mut pair, n)?;
    Ok(pair)
}

fn set_up(pair: &mut Pair, n: u32) -> Result<u32, String> {
    pair.setup(n).map_err(|what| format!("set-up of {n}: {what}"))
}
