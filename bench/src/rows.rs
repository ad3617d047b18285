//! The calls that are timed.

use cube_proved::frame::{fault, frame, good, grow, relabel, release, repaired, request};
use cube_proved::STRATEGIES;
use cube_reference as reference;
pub use cube_reference::record::Record;
use cube_reference::session::fresh;
use std::fmt;

/// The frame call of a program; or its loading call, which leaves frame and reply.
pub type Call = fn(&mut [u8], &[u8], &mut [u8]) -> u32;

/// A call that is timed on each of these records in turn: often on one alone.
pub struct Row {
    pub name: String,
    pub n: u32,
    pub starts: Vec<Record>,
    /// The frame; of no bytes where the loading call is timed.
    pub call: Vec<u8>,
}

/// A strategy, and what is asked by it.
pub type Asked = (usize, String);

/// Number, reply and record after a call.
pub type After = (u32, [u8; 12], Record);

impl Row {
    /// The strategy of a request or a growth, and what tells it from the others
    /// of that strategy: its name up to the strategy's, k and n.
    pub fn asked(&self) -> Option<Asked> {
        let strategy = usize::from(*self.call.get(7)?);
        let (before, _) = self.name.split_once(STRATEGIES.get(strategy)?)?;
        Some((strategy, format!("{before}k {}, n {}", self.call[6], self.n)))
    }

    /// Whether it is the loading call that is timed.
    pub fn is_load(&self) -> bool {
        self.call.is_empty()
    }

    /// What a program makes of each record.
    pub fn after(&self, program: Call) -> Vec<After> {
        let after = |start: &Record| {
            let (mut record, mut reply) = (*start, [0; 12]);
            (program(&mut record, &self.call, &mut reply), reply, record)
        };
        self.starts.iter().map(after).collect()
    }
}

impl fmt::Display for Row {
    fn fmt(&self, out: &mut fmt::Formatter) -> fmt::Result {
        out.pad(&format!("{}, n {}", self.name, self.n))
    }
}

/// A row on the record that these calls leave.
fn row(name: &str, n: u32, before: Vec<Vec<u8>>, call: Vec<u8>) -> Row {
    let mut start = fresh(n);
    for frame in before {
        reference::call(&mut start, &frame, &mut [0; 12]);
    }
    Row { name: name.to_string(), n, starts: vec![start], call }
}

/// All nodes good.
fn goods(n: u32) -> Vec<Vec<u8>> {
    (0..1 << n).map(good).collect()
}

/// Each call, accepted and refused, at one n. Requests are of half the
/// dimension and get the first member.
pub fn calls(n: u32) -> Vec<Row> {
    let last = (1 << n) - 1;
    let faults = [goods(n), vec![fault(0), fault(last)]].concat();
    let held = vec![good(last), request(7, 0, 0)];
    let mut rows = vec![
        row("report good", n, vec![], good(last)),
        row("report fault", n, vec![], fault(0)),
        row("report repaired", n, vec![fault(0)], repaired(0)),
        row("refused frame (4)", n, vec![], frame(0x0999, &[0, 0])),
        row("refused node (8)", n, vec![], good(1 << n)),
        row("refused release (11)", n, goods(n), release(7)),
        row("refused relabel (13)", n, held, relabel()),
        row("relabel", n, faults, relabel()),
    ];
    for (strategy, name) in STRATEGIES.iter().enumerate() {
        let request = request(7, n as u8 / 2, strategy as u8);
        let granted = [goods(n), vec![request.clone()]].concat();
        rows.push(row(&format!("request granted, {name}"), n, goods(n), request));
        rows.push(row(&format!("release, {name}"), n, granted, release(7)));
    }
    rows
}

/// Growths, granted and refused, at one n from 1 on. Those that are granted are
/// of half the dimension, by a job that holds a half of what it gets; where
/// none is free the job holds one node, and the others are silent.
pub fn growths(n: u32) -> Vec<Row> {
    let k = (n as u8 / 2).max(1);
    let held = |strategy: u8| [goods(n), vec![request(7, k - 1, strategy)]].concat();
    let alone = vec![good((1 << n) - 1), request(7, 0, 0)];
    let mut rows = vec![
        row("refused growth (11)", n, goods(n), grow(7, k, 0)),
        row("refused growth (17)", n, held(0), grow(7, k - 1, 0)),
    ];
    for (strategy, name) in (0..).zip(STRATEGIES) {
        let call = grow(7, k, strategy);
        rows.push(row(&format!("growth granted, {name}"), n, held(strategy), call.clone()));
        rows.push(row(&format!("growth, none free, {name}"), n, alone.clone(), call));
    }
    rows
}

/// A request on a cube with nothing free: every member is tried.
fn nothing_free(n: u32, k: u32, strategy: usize) -> Row {
    let name = format!("none free, {}, k {k}", STRATEGIES[strategy]);
    row(&name, n, vec![], request(7, k as u8, strategy as u8))
}

/// A request on a relabelled cube, the map not being the identity: of two nodes
/// across direction n one is silent and one faulty.
pub fn relabelled(n: u32) -> Row {
    let reports = [fault(0), repaired(0), fault(1 << (n - 1)), relabel()];
    let before = [goods(n), reports.to_vec()].concat();
    let row = row("request granted, relabelled", n, before, request(7, n as u8 / 2, 0));
    assert_ne!(reference::record::map(&row.starts[0]), reference::IDENTITY, "{row}");
    row
}

/// What is followed from n to n: one call of each sort.
pub fn grown(n: u32) -> Vec<Row> {
    let wanted = [
        "report good",
        "relabel",
        "request granted, buddy",
        "request granted, best fit",
        "growth granted, buddy",
        "release, buddy",
    ];
    let growths = if n > 0 { growths(n) } else { vec![] };
    let calls = calls(n).into_iter().chain(growths);
    let calls = calls.filter(|row| wanted.contains(&&row.name[..]));
    calls.chain((0..STRATEGIES.len()).map(|s| nothing_free(n, n / 2, s))).collect()
}
