//! What is printed: rows, a line for each part, best fit beside buddy, and what
//! all rows show.

use cube_bench::rows::Asked;
use std::collections::HashMap;

/// A row's name and what its call took by the library, by the second program
/// and, where it answers, by the limit; and the library's time by the second
/// program's in the middle one of the rounds.
pub struct Line {
    pub name: String,
    pub asked: Option<Asked>,
    pub unit: &'static str,
    pub refused: bool,
    pub took: Vec<f64>,
    pub second: f64,
}

/// A program that the library is compared with: its place in `took`, and the
/// ratio that no row should be above.
struct Anchor {
    program: usize,
    name: &'static str,
    goal: f64,
}

const SECOND: Anchor = Anchor { program: 1, name: "second program", goal: 1.0 };
const LIMIT: Anchor = Anchor { program: 2, name: "limit", goal: 10.0 };

/// How many rows above a goal are named.
const SHOWN: usize = 20;

/// The strategies that have buddy's family.
const BUDDY: usize = 0;
const BEST_FIT: usize = 4;

impl Line {
    fn is_by(&self, strategy: usize) -> bool {
        self.asked.as_ref().is_some_and(|asked| asked.0 == strategy)
    }

    fn ratio(&self, anchor: &Anchor) -> Option<f64> {
        match anchor.program {
            1 => Some(self.second),
            program => Some(self.took[0] / self.took.get(program)?),
        }
    }
}

/// Every row.
pub fn rows(title: &str, lines: &[Line]) {
    println!("\n{title}");
    println!("{:74} {:>11} {:>16} {:>16}", "call", "library", "second / ratio", "limit / ratio");
    for line in lines {
        print!("{:74} {:>8.0} {}", line.name, line.took[0], line.unit);
        for anchor in [SECOND, LIMIT] {
            if let Some(ratio) = line.ratio(&anchor) {
                print!(" {:>9.0} {ratio:>6.2}", line.took[anchor.program]);
            }
        }
        println!();
    }
}

/// Ratios to an anchor, ascending.
fn ratios<'a>(anchor: &Anchor, lines: impl IntoIterator<Item = &'a Line>) -> Vec<f64> {
    let mut ratios: Vec<_> = lines.into_iter().filter_map(|line| line.ratio(anchor)).collect();
    ratios.sort_by(f64::total_cmp);
    ratios
}

fn above(anchor: &Anchor, ratios: &[f64]) -> usize {
    ratios.iter().filter(|ratio| **ratio > anchor.goal).count()
}

/// The heads of `part`'s columns.
pub fn heads() {
    println!("\n{:62} {:^29} {:^29}", "", "library / second", "library / limit");
    let columns = format!("{:>5} {:>6} {:>8} {:>6}", "rows", "median", "highest", "above");
    println!("{:62}  {columns}  {columns}", "pattern");
}

/// One line for many rows.
pub fn part(title: &str, lines: &[Line]) {
    print!("{title:62}");
    for anchor in [SECOND, LIMIT] {
        let ratios = ratios(&anchor, lines);
        if let Some(highest) = ratios.last() {
            let (len, above) = (ratios.len(), above(&anchor, &ratios));
            print!("  {len:>5} {:>6.2} {highest:>8.2} {above:>6}", ratios[len / 2]);
        }
    }
    println!();
}

/// How the ratios of some rows lie, and the highest of those above the goal.
fn anchored(what: &str, anchor: &Anchor, lines: &[&Line]) {
    let ratios = ratios(anchor, lines.iter().copied());
    let Some(highest) = ratios.last() else { return };
    let (len, above) = (ratios.len(), above(anchor, &ratios));
    let mean = ratios.iter().sum::<f64>() / len as f64;
    print!("\nlibrary / {}, {what}: {len} rows, {above} above {:.2}", anchor.name, anchor.goal);
    println!("; highest {highest:.2}, mean {mean:.2}, median {:.2}", ratios[len / 2]);
    let mut worst: Vec<_> = lines.iter().filter_map(|l| Some((l.ratio(anchor)?, l))).collect();
    worst.sort_by(|a, b| b.0.total_cmp(&a.0));
    for (ratio, line) in worst.iter().filter(|(ratio, _)| *ratio > anchor.goal).take(SHOWN) {
        println!("{ratio:>8.2}  {}", line.name);
    }
}

/// What is asked by best fit, with the library's times for it and for the same
/// by buddy, by their ratio, the highest first.
fn pairs(lines: &[Line]) -> Vec<(&str, f64, f64)> {
    let buddy = lines.iter().filter(|line| line.is_by(BUDDY));
    let buddy: HashMap<_, _> =
        buddy.filter_map(|line| Some((&line.asked.as_ref()?.1, line.took[0]))).collect();
    let best_fit = lines.iter().filter(|line| line.is_by(BEST_FIT));
    let mut pairs: Vec<(&str, f64, f64)> = best_fit
        .filter_map(|line| Some((&line.asked.as_ref()?.1, line.took[0])))
        .filter_map(|(asked, took)| Some((&asked[..], took, *buddy.get(asked)?)))
        .collect();
    pairs.sort_by(|a, b| (b.1 / b.2).total_cmp(&(a.1 / a.2)));
    pairs
}

/// Best fit beside buddy: the same asked of the same cube, but where the cube is
/// one that the strategy itself has used. Some of the highest, or all.
pub fn beside_buddy(lines: &[Line], all: bool) {
    let pairs = pairs(lines);
    if pairs.is_empty() {
        return;
    }
    println!("\n{:74} {:>11} {:>9} {:>6}", "best fit beside buddy", "best fit", "buddy", "ratio");
    for (asked, best_fit, buddy) in &pairs[..if all { pairs.len() } else { SHOWN.min(pairs.len()) }]
    {
        println!("{asked:74} {best_fit:>8.0} ns {buddy:>9.0} {:>6.2}", best_fit / buddy);
    }
    for n in [4, 7, 10] {
        let end = format!(", n {n}");
        let of_n = || pairs.iter().filter(|pair| pair.0.ends_with(&end));
        let ratios: Vec<_> = of_n().map(|(_, best_fit, buddy)| best_fit / buddy).collect();
        let longest = of_n().map(|pair| pair.1).fold(0.0, f64::max);
        if let Some(highest) = ratios.first() {
            let median = ratios[ratios.len() / 2];
            print!("best fit / buddy, n {n}: {} rows, highest {highest:.2}", ratios.len());
            println!(", median {median:.2}; best fit takes at most {longest:.0} ns");
        }
    }
}

/// What all rows show.
pub fn summary(lines: &[Line]) {
    let (refused, others): (Vec<_>, Vec<_>) = lines.iter().partition(|line| line.refused);
    anchored("all", &SECOND, &lines.iter().collect::<Vec<_>>());
    let mut least: Vec<_> = lines.iter().map(|line| line.took[0] / line.took[1]).collect();
    least.sort_by(f64::total_cmp);
    if let Some(highest) = least.last() {
        println!("by least times: {} above 1.00; highest {highest:.2}", above(&SECOND, &least));
    }
    anchored("refusals", &LIMIT, &refused);
    anchored("grants", &LIMIT, &others);
    let best_fit: Vec<_> = lines.iter().filter(|line| line.is_by(BEST_FIT)).collect();
    [SECOND, LIMIT].iter().for_each(|anchor| anchored("best fit", anchor, &best_fit));
}
