//! Times the proved library against the second implementation, call by call
//! and turn by turn in one run.
//!
//! `bench [milliseconds of a sample] [samples]`. A line has, for one call on
//! one input, the median time of each side, the median of the ratios library
//! to paper of neighbouring samples with the bounds of its middle half, and
//! each side's bytes per second and nanoseconds per item. Time is that on a
//! core. Bytes are those that a call is lent to read. Items are a plan's
//! actions for compile, a record's or a step's items for replay and fire, and
//! a net's transitions for enabled. Firing includes putting the marking back.

mod cases;
mod inputs;
mod timing;

use cases::cases;
use inputs::inputs;
use timing::{quartiles, Settings};

fn main() {
    let mut numbers = std::env::args().skip(1).map(|word| word.parse().expect("a number"));
    let settings = Settings {
        milliseconds: numbers.next().unwrap_or(10),
        samples: numbers.next().unwrap_or(31),
    };
    println!("library / paper");
    line(["call", "input", "ns", "ratio (quarters)", "MB/s", "ns/item"].map(String::from));
    for input in inputs() {
        for mut case in cases(&input) {
            let (library, paper) = settings.time(&mut case);
            let ns = library.as_ref().map(|times| median(times));
            let both = |digits: usize, value: &dyn Fn(f64) -> f64| {
                let text = |ns: f64| format!("{:.digits$}", value(ns));
                let library = ns.map_or(String::from("-"), text);
                format!("{library} / {}", text(median(&paper)))
            };
            line([
                case.call.to_string(),
                input.name.to_string(),
                both(0, &|ns| ns),
                library.as_ref().map_or(String::from("-"), |library| ratio(library, &paper)),
                both(0, &|ns| case.bytes as f64 * 1e3 / ns),
                both(1, &|ns| ns / case.items as f64),
            ]);
        }
    }
}

fn median(times: &[f64]) -> f64 {
    quartiles(times)[1]
}

/// The ratios of neighbouring samples: the median, and the quarters' bounds.
fn ratio(library: &[f64], paper: &[f64]) -> String {
    let pairs = library.iter().zip(paper);
    let ratios: Vec<f64> = pairs.map(|(library, paper)| library / paper).collect();
    let [low, middle, high] = quartiles(&ratios);
    format!("{middle:.2} ({low:.2} .. {high:.2})")
}

fn line([call, input, ns, ratio, rate, per_item]: [String; 6]) {
    println!("{call:<8} {input:<12} {ns:>16}  {ratio:<20} {rate:>15} {per_item:>17}");
}
