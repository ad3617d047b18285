//! The plot, as SVG: U and R over the mean residence time at n = 10.

use crate::paper;
use crate::study::{Case, Faults, Manager, Results};
use crate::tables::{granted, name, utilization, Measure};

pub const N: u32 = 10;
pub const RESIDENCES: [u32; 5] = [10, 20, 40, 80, 160];

const COLOURS: [&str; 5] = ["#0072b2", "#d55e00", "#009e73", "#aa4499", "#e69f00"];
const WIDTH: f64 = 400.0;
const HEIGHT: f64 = 300.0;
const TOP: f64 = 50.0;

/// One of the two panels: its left edge, what it shows and the values at its
/// lower and upper edge.
struct Panel {
    left: f64,
    title: &'static str,
    measure: Measure,
    table: &'static paper::Table,
    from: f64,
    to: f64,
    step: f64,
}

const PANELS: [Panel; 2] = [
    Panel {
        left: 60.0,
        title: "U, share of node time in use (%)",
        measure: utilization,
        table: &paper::TABLE_2,
        from: 0.0,
        to: 80.0,
        step: 10.0,
    },
    Panel {
        left: 530.0,
        title: "R, share of valid requests granted (%)",
        measure: granted,
        table: &paper::TABLE_1,
        from: 84.0,
        to: 100.0,
        step: 2.0,
    },
];

impl Panel {
    /// Doubling the residence time is always the same step.
    fn x(&self, residence: u32) -> f64 {
        let octaves = f64::from(residence / RESIDENCES[0]).log2();
        self.left + 20.0 + octaves * (WIDTH - 40.0) / 4.0
    }

    fn y(&self, value: f64) -> f64 {
        TOP + HEIGHT * (self.to - value) / (self.to - self.from)
    }

    fn axes(&self) -> String {
        let mut text = label(self.left, TOP - 16.0, "start", self.title);
        let (right, bottom) = (self.left + WIDTH, TOP + HEIGHT);
        let steps = ((self.to - self.from) / self.step) as u32;
        for value in (0..=steps).map(|i| self.from + f64::from(i) * self.step) {
            let y = self.y(value);
            text += &format!("<path d=\"M{:.1} {y:.1}H{right:.1}\" stroke=\"#ddd\"/>\n", self.left);
            text += &label(self.left - 8.0, y + 4.0, "end", &value.to_string());
        }
        text += &RESIDENCES
            .map(|mean| label(self.x(mean), bottom + 18.0, "middle", &mean.to_string()))
            .concat();
        text += &label(self.left + WIDTH / 2.0, bottom + 38.0, "middle", "mean residence time");
        let frame = format!("M{:.1} {TOP:.1}V{bottom:.1}H{right:.1}", self.left);
        text + &format!("<path d=\"{frame}\" fill=\"none\" stroke=\"#333\"/>\n")
    }

    fn curve(&self, results: &Results, manager: Manager) -> String {
        let points = RESIDENCES.map(|mean| {
            let case = Case::new(N, Faults::Extreme, mean);
            let value = (self.measure)(results[&(manager, case)].mean);
            format!("{:.1},{:.1}", self.x(mean), self.y(value))
        });
        format!("<polyline points=\"{}\" {}/>\n", points.join(" "), style(manager))
    }

    /// The paper's figures: squares for Algorithm 1, discs for Algorithm 2.
    fn marks(&self) -> String {
        let figures = self.table[N as usize - 5];
        let squares = paper::RESIDENCES.iter().zip(figures[0]);
        let discs = paper::RESIDENCES.iter().zip(figures[1]);
        let squares: String = squares.map(|(&x, &y)| square(self.x(x), self.y(y))).collect();
        squares + &discs.map(|(&x, &y)| disc(self.x(x), self.y(y))).collect::<String>()
    }
}

fn style(manager: Manager) -> String {
    let Manager::Proved { strategy, relabel } = manager else {
        panic!("only the proved managers have a curve");
    };
    let dashes = if relabel { "" } else { " stroke-dasharray=\"6 4\"" };
    let colour = COLOURS[usize::from(strategy)];
    format!("fill=\"none\" stroke=\"{colour}\" stroke-width=\"2\"{dashes}")
}

fn label(x: f64, y: f64, anchor: &str, text: &str) -> String {
    format!("<text x=\"{x:.1}\" y=\"{y:.1}\" text-anchor=\"{anchor}\">{text}</text>\n")
}

fn square(x: f64, y: f64) -> String {
    let (x, y) = (x - 4.0, y - 4.0);
    let size = "width=\"8\" height=\"8\"";
    format!("<rect x=\"{x:.1}\" y=\"{y:.1}\" {size} fill=\"#fff\" stroke=\"#000\"/>\n")
}

fn disc(x: f64, y: f64) -> String {
    format!("<circle cx=\"{x:.1}\" cy=\"{y:.1}\" r=\"4\"/>\n")
}

/// A column for each strategy, without and with relabelling, and below them the
/// paper's figures.
fn legend(managers: &[Manager]) -> String {
    let (top, column) = (TOP + HEIGHT + 66.0, |i: usize| 40.0 + 184.0 * i as f64);
    let entries = managers.iter().enumerate().map(|(i, &manager)| {
        let (x, y) = (column(i / 2), top + 22.0 * (i % 2) as f64);
        let line = format!("<path d=\"M{x:.1} {y:.1}h30\" {}/>\n", style(manager));
        line + &label(x + 36.0, y + 4.0, "start", &name(manager))
    });
    let ([first, second], y) = ([0, 1].map(column), top + 44.0);
    entries.collect::<String>()
        + &square(first + 15.0, y)
        + &label(first + 36.0, y + 4.0, "start", "paper, Algorithm 1")
        + &disc(second + 15.0, y)
        + &label(second + 36.0, y + 4.0, "start", "paper, Algorithm 2")
}

pub fn plot(results: &Results, managers: &[Manager]) -> String {
    let size = "viewBox=\"0 0 960 480\" width=\"960\" height=\"480\"";
    let font = "font-family=\"sans-serif\" font-size=\"13\"";
    let mut text = format!("<svg xmlns=\"http://www.w3.org/2000/svg\" {size} {font}>\n");
    text += "<title>Utilization and requests granted, n = 10, nodes 0 and 512 faulty</title>\n";
    text += "<rect width=\"960\" height=\"480\" fill=\"#fff\"/>\n";
    for panel in &PANELS {
        let curves = managers.iter().map(|&manager| panel.curve(results, manager));
        text += &(panel.axes() + &curves.collect::<String>() + &panel.marks());
    }
    text + &legend(managers) + "</svg>\n"
}
