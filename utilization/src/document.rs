//! The document: its text with the tables put in.

use crate::growth::{self, Shares, Way};
use crate::paper;
use crate::plot;
use crate::study::{managers, Case, Cell, Estimate, Faults, Manager, Results};
use crate::tables::{self, average, beside, extreme, granted, others, utilization, Measure};

const TEXT: &str = include_str!("document.md");

/// The managers of the plot.
pub fn proved() -> Vec<Manager> {
    managers().into_iter().filter(|&manager| manager != Manager::Printed).collect()
}

/// All that is simulated.
pub fn cells() -> Vec<Cell> {
    let sizes = || paper::SIZES;
    let tables = sizes().flat_map(|n| [(extreme().cases)(n), (average().cases)(n)].concat());
    let narrower = sizes().flat_map(extreme().cases).map(tables::narrower);
    let ends = plot::RESIDENCES
        .into_iter()
        .filter(|mean| !paper::RESIDENCES.contains(mean))
        .map(|mean| Case::new(plot::N, Faults::Extreme, mean));
    pairs(managers(), tables)
        .chain(pairs(tables::BESIDE.map(|row| row.0).to_vec(), narrower))
        .chain(pairs(proved(), ends))
        .collect()
}

fn pairs(managers: Vec<Manager>, cases: impl Iterator<Item = Case>) -> impl Iterator<Item = Cell> {
    cases.flat_map(move |case| managers.clone().into_iter().map(move |manager| (manager, case)))
}

/// The largest standard error among the cells of one kind.
fn noise(results: &Results, measure: Measure, extreme: bool) -> String {
    let kind = |cell: &Cell| (cell.1.faults == Faults::Extreme) == extreme;
    let errors = results.iter().filter(|(cell, _)| kind(cell));
    let largest = errors.map(|(_, Estimate { error, .. })| measure(*error)).fold(0.0, f64::max);
    format!("{largest:.2}")
}

fn extent(faults: Faults) -> String {
    let (runs, arrivals) = Case::new(5, faults, paper::AVERAGE_RESIDENCE).extent();
    format!("{runs} runs of {arrivals} arrivals")
}

/// The largest standard error of a share of growths.
fn growth_noise(results: &growth::Results) -> String {
    format!("{:.2}", results.values().map(|estimate| estimate.error).fold(0.0, f64::max))
}

/// From where to where a share lies, in whole percents.
fn growth_range(results: &growth::Results, way: Way, share: fn(&Shares) -> f64) -> String {
    let of_way = results.iter().filter(|(cell, _)| cell.way == way);
    let mut shares: Vec<f64> = of_way.map(|(_, estimate)| share(&estimate.mean)).collect();
    shares.sort_by(f64::total_cmp);
    format!("{:.0} to {:.0}", shares[0], shares[shares.len() - 1])
}

pub fn document(results: &Results, growths: &growth::Results) -> String {
    let (fixed, drawn) = (extreme(), average());
    let parts = [
        ("table-1", beside(results, granted, &fixed, &paper::TABLE_1)),
        ("table-2", beside(results, utilization, &fixed, &paper::TABLE_2)),
        ("table-3", beside(results, granted, &drawn, &paper::TABLE_3)),
        ("table-4", beside(results, utilization, &drawn, &paper::TABLE_4)),
        ("others-1", others(results, granted, &fixed)),
        ("others-2", others(results, utilization, &fixed)),
        ("others-3", others(results, granted, &drawn)),
        ("others-4", others(results, utilization, &drawn)),
        ("best-fit", tables::best_fit(results, &fixed)),
        ("best-fit-drawn", tables::best_fit(results, &drawn)),
        ("printed-r", tables::from_printed(results, granted, &fixed)),
        ("printed-u", tables::from_printed(results, utilization, &fixed)),
        ("printed-r-drawn", tables::from_printed(results, granted, &drawn)),
        ("printed-u-drawn", tables::from_printed(results, utilization, &drawn)),
        ("differences", tables::differences(results)),
        ("most", tables::most(results)),
        ("growths", tables::growths(growths)),
        ("noise-growths", growth_noise(growths)),
        ("kept", growth_range(growths, Way::Grow, |shares| shares.kept)),
        ("displaced", growth_range(growths, Way::ReleaseFirst, |shares| shares.displaced)),
        ("first-run", tables::first_run(&managers())),
        ("first-growths", tables::first_growths()),
        ("extent", extent(Faults::Extreme)),
        ("extent-drawn", extent(Faults::Drawn(1))),
        ("noise-r", noise(results, granted, true)),
        ("noise-u", noise(results, utilization, true)),
        ("noise-r-drawn", noise(results, granted, false)),
        ("noise-u-drawn", noise(results, utilization, false)),
    ];
    parts.iter().fold(TEXT.to_string(), |text, (name, part)| {
        let place = format!("{{{name}}}");
        assert!(text.contains(&place), "the text has no {place}");
        text.replace(&place, part.trim_end())
    })
}

/// Whether the page has all of the text between the figures, in order.
pub fn has_text(page: &str) -> bool {
    let mut pieces = TEXT.split(['{', '}']).step_by(2);
    let after = |page: &str, piece: &str| page.find(piece).map(|at| at + piece.len());
    pieces.try_fold(page, |rest, piece| Some(&rest[after(rest, piece)?..])).is_some()
}
