//! What the gate runs: the model held to a known answer, strategy 4 to the
//! lists of document 003, and the document to the program.

use cube_proved::frame;

use crate::cube::Cube;
use crate::document::has_text;
use crate::lists::{Lists, Take};
use crate::paper;
use crate::simulate::{run, Allocate, Load};
use crate::study::{faulty, managers, Case, Faults};
use crate::tables::{first_growths, first_run};

/// Two good nodes can't be fragmented, so that each valid request is granted
/// and the loads have the product form of loss systems: with rates 2 and 2 the
/// states none, one node, two jobs of one node and one job of two nodes weigh
/// 1, 2, 2 and 2, which is 5/7 of the nodes in use.
fn two_nodes() {
    let load = Load { largest: 1, residence: 20, arrivals: 100_000 };
    let seen = run(&mut Cube::new(1, &[], 0, false), 1, 2, load, 1);
    assert_eq!(seen.granted, 100.0);
    let apart = (seen.utilization - 500.0 / 7.0).abs();
    assert!(apart < 0.5, "two nodes are in use {:.2} percent of the time", seen.utilization);
}

/// Strategy 4 on a relabelled cube, and beside it the lists.
struct Both {
    cube: Cube,
    lists: Lists,
    granted: u32,
}

impl Allocate for Both {
    /// Both grant the same nodes, or nothing; and strategy 4 tries as many as
    /// the lists have.
    fn request(&mut self, job: u16, k: u8) -> bool {
        let listed = self.lists.count();
        let (got, tried) = self.cube.answer(frame::request, job, k);
        assert_eq!(usize::from(tried), listed, "what is tried for job {job}, k {k}");
        assert_eq!(got, self.lists.ask(job, k), "job {job}, k {k}");
        self.granted += u32::from(got.is_some());
        got.is_some()
    }

    fn release(&mut self, job: u16) -> u32 {
        let back = self.cube.release(job);
        assert_eq!(back, self.lists.release(job));
        back
    }
}

/// The first run of each size with these faulty nodes: how many grants were
/// the same.
fn same_grants(faults: Faults) -> u32 {
    let runs = paper::SIZES.map(|n| {
        let case = Case::new(n, faults, paper::AVERAGE_RESIDENCE);
        let faulty = faulty(case, 1);
        let (cube, lists) = (Cube::new(n, &faulty, 4, true), Lists::new(n, &faulty, Take::Lowest));
        let mut both = Both { cube, lists, granted: 0 };
        let (good, (_, arrivals)) = ((1 << n) - faulty.len() as u32, case.extent());
        let load = Load { largest: case.largest, residence: case.residence, arrivals };
        run(&mut both, n, good, load, 1);
        both.granted
    });
    runs.sum()
}

pub fn check(document: &str) {
    two_nodes();
    let drawn = paper::FAULTS.map(Faults::Drawn);
    let same: u32 = drawn.into_iter().chain([Faults::Extreme]).map(same_grants).sum();
    println!("best fit relabelled and the lists, lowest label first: {same} grants, all the same");
    assert!(has_text(document), "docs/utilization.md hasn't the text of src/document.md");
    for table in [first_run(&managers()), first_growths()] {
        assert!(
            document.contains(&table),
            "docs/utilization.md is stale; now the first run gives\n{table}"
        );
    }
    println!("docs/utilization.md: the first run gives its figures again");
}
