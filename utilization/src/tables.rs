//! The tables of the document, in Markdown.

use cube_proved::STRATEGIES;

use crate::growth::{self, WAYS};
use crate::paper::{self, SIZES};
use crate::simulate::{Measures, BETWEEN};
use crate::study::{mean, once, strategies, Case, Faults, Manager, Results};
use crate::study::{BEST_FIT, BEST_FIT_RELABELLED, BUDDY, BUDDY_RELABELLED};

/// One of the two measures.
pub type Measure = fn(Measures) -> f64;

pub fn granted(measures: Measures) -> f64 {
    measures.granted
}

pub fn utilization(measures: Measures) -> f64 {
    measures.utilization
}

/// The cases of a table's row, from left to right, and what stands above them.
pub struct Columns {
    pub heads: Vec<String>,
    pub cases: fn(u32) -> Vec<Case>,
}

/// Columns of tables 1 and 2.
pub fn extreme() -> Columns {
    let heads = paper::RESIDENCES.iter().map(|mean| format!("mean {mean}")).collect();
    Columns {
        heads,
        cases: |n| paper::RESIDENCES.map(|mean| Case::new(n, Faults::Extreme, mean)).to_vec(),
    }
}

/// Columns of tables 3 and 4.
pub fn average() -> Columns {
    let heads = paper::FAULTS.iter().map(|count| format!("{count} faulty")).collect();
    let cases = |n| {
        paper::FAULTS
            .map(|count| Case::new(n, Faults::Drawn(count), paper::AVERAGE_RESIDENCE))
            .to_vec()
    };
    Columns { heads, cases }
}

/// A manager that stands beside the paper's, its name, and which of the paper's
/// two algorithms it is; for the lists without relabelling there are no figures.
type Beside = (Manager, &'static str, Option<usize>);

pub const BESIDE: [Beside; 5] = [
    (BUDDY, "buddy (Algorithm 1)", Some(0)),
    (BEST_FIT, "best fit", None),
    (BEST_FIT_RELABELLED, "best fit relabelled (Algorithm 2)", Some(1)),
    (Manager::Printed, "Algorithm 2 as printed", Some(1)),
    (BUDDY_RELABELLED, "buddy relabelled", Some(1)),
];

/// The strategies that have tables of their own: all but buddy and best fit.
const OTHERS: std::ops::Range<u8> = 1..4;

/// The cube sizes of the table of growths.
const GROWTH_SIZES: [u32; 2] = [5, 10];

fn line(words: impl IntoIterator<Item = String>) -> String {
    format!("| {} |\n", words.into_iter().collect::<Vec<_>>().join(" | "))
}

fn head(words: Vec<String>) -> String {
    let rule = vec!["---".to_string(); words.len()];
    line(words) + &line(rule)
}

/// The paper's figures with ours beside them.
pub fn beside(
    results: &Results,
    measure: Measure,
    columns: &Columns,
    table: &paper::Table,
) -> String {
    let pairs = columns.heads.iter().flat_map(|head| [format!("{head}: paper"), "ours".into()]);
    let mut text = head(["n".into(), "manager".into()].into_iter().chain(pairs).collect());
    for (n, figures) in SIZES.zip(table) {
        text += &BESIDE.map(|row| beside_row(results, measure, columns, n, figures, row)).concat();
    }
    text
}

fn beside_row(
    results: &Results,
    measure: Measure,
    columns: &Columns,
    n: u32,
    figures: &[&[f64]; 2],
    (manager, name, algorithm): Beside,
) -> String {
    let pairs = (columns.cases)(n).into_iter().enumerate().flat_map(|(column, case)| {
        let ours = measure(results[&(manager, case)].mean);
        let figure = algorithm.map(|algorithm| format!("{:.2}", figures[algorithm][column]));
        [figure.unwrap_or("-".to_string()), format!("{ours:.2}")]
    });
    line([n.to_string(), name.to_string()].into_iter().chain(pairs))
}

/// The other strategies, each cell without and with relabelling.
pub fn others(results: &Results, measure: Measure, columns: &Columns) -> String {
    let words = ["n".to_string(), "strategy".to_string()].into_iter();
    let mut text = head(words.chain(columns.heads.clone()).collect());
    for (n, strategy) in SIZES.flat_map(|n| OTHERS.map(move |strategy| (n, strategy))) {
        let cells = (columns.cases)(n).into_iter().map(|case| {
            let ours =
                |relabel| measure(results[&(Manager::Proved { strategy, relabel }, case)].mean);
            format!("{:.2} / {:.2}", ours(false), ours(true))
        });
        let name = STRATEGIES[usize::from(strategy)].to_string();
        text += &line([n.to_string(), name].into_iter().chain(cells));
    }
    text
}

/// The case as it is: sizes 0 to n.
fn as_stated(case: Case) -> Case {
    case
}

/// The same case with sizes 0 to n - 1.
pub fn narrower(case: Case) -> Case {
    Case { largest: case.n - 1, ..case }
}

/// Ours less the paper's over the cells of tables 1 and 2: the mean, and the
/// root of the mean square.
pub fn differences(results: &Results) -> String {
    let heads = ["manager", "R, sizes 0 to n", "R, 0 to n - 1", "U, sizes 0 to n", "U, 0 to n - 1"];
    let mut text = head(heads.map(String::from).to_vec());
    for (manager, name, algorithm) in BESIDE {
        let Some(algorithm) = algorithm else { continue };
        let cell = |measure: Measure, table, sizes: fn(Case) -> Case| {
            difference(results, (manager, algorithm), measure, table, sizes)
        };
        text += &line([
            name.to_string(),
            cell(granted, &paper::TABLE_1, as_stated),
            cell(granted, &paper::TABLE_1, narrower),
            cell(utilization, &paper::TABLE_2, as_stated),
            cell(utilization, &paper::TABLE_2, narrower),
        ]);
    }
    text
}

fn difference(
    results: &Results,
    (manager, algorithm): (Manager, usize),
    measure: Measure,
    table: &paper::Table,
    sizes: fn(Case) -> Case,
) -> String {
    let cases = extreme().cases;
    let apart: Vec<f64> = SIZES
        .zip(table)
        .flat_map(|(n, figures)| cases(n).into_iter().zip(figures[algorithm]))
        .map(|(case, figure)| measure(results[&(manager, sizes(case))].mean) - figure)
        .collect();
    let square = mean(apart.iter().map(|x| x * x).collect()).0.sqrt();
    format!("{:+.2} ({square:.2})", mean(apart).0)
}

/// Best fit less buddy, each without and with relabelling: R and U.
pub fn best_fit(results: &Results, columns: &Columns) -> String {
    let words = ["n".to_string(), "relabelled".to_string()].into_iter();
    let mut text = head(words.chain(columns.heads.clone()).collect());
    let pairs = [("no", BEST_FIT, BUDDY), ("yes", BEST_FIT_RELABELLED, BUDDY_RELABELLED)];
    for (n, (relabelled, best, first)) in SIZES.flat_map(|n| pairs.map(|pair| (n, pair))) {
        let cells = (columns.cases)(n).into_iter().map(|case| {
            let [best, first] = [best, first].map(|manager| results[&(manager, case)].mean);
            let apart = |measure: Measure| measure(best) - measure(first);
            format!("{:+.2} / {:+.2}", apart(granted), apart(utilization))
        });
        text += &line([n.to_string(), relabelled.to_string()].into_iter().chain(cells));
    }
    text
}

/// How far best fit relabelled is from Algorithm 2 as printed in the cells of a
/// table: the lowest and the highest difference.
pub fn from_printed(results: &Results, measure: Measure, columns: &Columns) -> String {
    let apart = |case| {
        let [ours, printed] = [BEST_FIT_RELABELLED, Manager::Printed]
            .map(|manager| measure(results[&(manager, case)].mean));
        ours - printed
    };
    let mut apart: Vec<f64> = SIZES.flat_map(columns.cases).map(apart).collect();
    apart.sort_by(f64::total_cmp);
    format!("{:+.2} to {:+.2}", apart[0], apart[apart.len() - 1])
}

/// Algorithm 1 at mean 20, with U if each request up to n - 2 were granted: a
/// larger one never is, since each half of the bit vector has a faulty node.
pub fn most(results: &Results) -> String {
    let heads = ["n", "R: paper", "ours", "U: paper", "ours", "U at most"];
    let mut text = head(heads.map(String::from).to_vec());
    let load = f64::from(paper::RESIDENCES[0]) / BETWEEN;
    for (place, n) in SIZES.enumerate() {
        let case = Case::new(n, Faults::Extreme, paper::RESIDENCES[0]);
        let ours = results[&(BUDDY, case)].mean;
        let nodes = f64::from((1 << (n - 1)) - 1) / f64::from(n + 1);
        let figures = [
            paper::TABLE_1[place][0][0],
            ours.granted,
            paper::TABLE_2[place][0][0],
            ours.utilization,
            100.0 * load * nodes / f64::from(1 << n),
        ];
        text += &line([n.to_string()].into_iter().chain(figures.map(|x| format!("{x:.2}"))));
    }
    text
}

/// The first run alone, at n = 5 and mean 20.
pub fn first_run(managers: &[Manager]) -> String {
    let mut text = head(["manager", "R", "U"].map(String::from).to_vec());
    for &manager in managers {
        let seen = once((manager, Case::new(5, Faults::Extreme, 20)), 1);
        let name = name(manager);
        text += &line([name, format!("{:.2}", seen.granted), format!("{:.2}", seen.utilization)]);
    }
    text
}

/// The cubes on which jobs grow, and their loads: those of tables 1 and 2.
pub fn growth_cases() -> Vec<Case> {
    GROWTH_SIZES.into_iter().flat_map(extreme().cases).collect()
}

/// For each way the share of those who ask validly that is granted.
pub fn growths(results: &growth::Results) -> String {
    let words = ["n".to_string(), "strategy".to_string()].into_iter();
    let mut text = head(words.chain(extreme().heads).collect());
    for (n, strategy) in GROWTH_SIZES.into_iter().flat_map(|n| strategies().map(move |s| (n, s))) {
        let cells = (extreme().cases)(n).into_iter().map(|case| {
            let of = |way| results[&growth::Cell { strategy, case, way }].mean.granted;
            WAYS.map(|way| format!("{:.2}", of(way))).join(" / ")
        });
        let name = STRATEGIES[usize::from(strategy)].to_string();
        text += &line([n.to_string(), name].into_iter().chain(cells));
    }
    text
}

/// The first run of growing jobs alone, at n = 5 and mean 20.
pub fn first_growths() -> String {
    let heads = ["strategy", "growth", "release first", "request first"];
    let mut text = head(heads.map(String::from).to_vec());
    for (strategy, name) in (0..).zip(STRATEGIES) {
        let case = Case::new(5, Faults::Extreme, 20);
        let shares = WAYS.map(|way| growth::once(growth::Cell { strategy, case, way }, 1));
        let shares = shares.map(|shares| format!("{:.2}", shares.granted));
        text += &line([name.to_string()].into_iter().chain(shares));
    }
    text
}

pub fn name(manager: Manager) -> String {
    match manager {
        Manager::Proved { strategy, relabel } => {
            let name = STRATEGIES[usize::from(strategy)];
            format!("{name}{}", if relabel { " relabelled" } else { "" })
        }
        Manager::Printed => "Algorithm 2 as printed".to_string(),
    }
}
