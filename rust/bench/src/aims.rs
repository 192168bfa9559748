//! The aims, each a bound for ratios of the run, and whether they are met.

use crate::report::heading;
use Bound::{AtMost, Below};

/// Whom the product was measured beside.
#[derive(Clone, Copy, PartialEq, Eq)]
pub enum Rival {
    RasterRoute,
    ByHand,
    Encoder,
    CellUnions,
}

/// A ratio that was measured: the product's time, lent 4^w words, over a rival's; the median over the rounds, and by the best times.
pub struct Record {
    pub rival: Rival,
    pub pair: &'static str,
    pub shift: String,
    pub task: &'static str,
    pub ratio: f64,
    pub best: f64,
}

impl Record {
    fn is_beside(&self, rival: Rival, pair: &str) -> bool {
        self.rival == rival && self.pair == pair
    }

    fn is_ragged_at_one(&self, task: &str) -> bool {
        self.is_beside(Rival::RasterRoute, "ragged") && self.shift == "(1, 1)" && self.task == task
    }

    fn is_beside_s2(&self, task: &str) -> bool {
        self.rival == Rival::CellUnions && self.task == task
    }
}

/// What a ratio must be to meet an aim.
#[derive(Clone, Copy)]
enum Bound {
    Below(f64),
    AtMost(f64),
}

impl Bound {
    fn is_met(self, ratio: f64) -> bool {
        match self {
            Bound::Below(bound) => ratio < bound,
            Bound::AtMost(bound) => ratio <= bound,
        }
    }

    fn said(self) -> String {
        match self {
            Bound::Below(bound) => format!("below {bound}"),
            Bound::AtMost(bound) => format!("at most {bound}"),
        }
    }
}

/// An aim: what it says, its bound, and which records it is about.
type Aim = (&'static str, Bound, fn(&Record) -> bool);

const AIMS: [Aim; 10] = [
    ("faster than the raster route: smooth", Below(1.0), |record| record.is_beside(Rival::RasterRoute, "smooth")),
    ("five times as fast as the raster route: smooth", AtMost(0.2), |record| record.is_beside(Rival::RasterRoute, "smooth")),
    ("faster than the raster route: middling", Below(1.0), |record| record.is_beside(Rival::RasterRoute, "middling")),
    ("no slower than the raster route: ragged at (1, 1), intersection", AtMost(1.0), |record| {
        record.is_ragged_at_one("intersection")
    }),
    ("within 1.3 times the raster route: ragged at (1, 1), union", AtMost(1.3), |record| record.is_ragged_at_one("union")),
    ("within 1.3 times the raster route: ragged at (1, 1), difference", AtMost(1.3), |record| {
        record.is_ragged_at_one("difference")
    }),
    ("no more than 1.5 times the painter by hand", AtMost(1.5), |record| record.rival == Rival::ByHand),
    ("raster to list no more than 1.3 times the plain encoder", AtMost(1.3), |record| record.rival == Rival::Encoder),
    ("no more than 3 times S2's intersection", AtMost(3.0), |record| record.is_beside_s2("intersection")),
    ("less than S2's union and difference", Below(1.0), |record| {
        record.is_beside_s2("union") || record.is_beside_s2("difference")
    }),
];

/// Whether an aim is met, by how many of the records that it is about meet it.
fn verdict(met: usize, about: usize) -> &'static str {
    match met {
        0 => "**no**",
        _ if met == about => "yes",
        _ => "**in part**",
    }
}

/// Prints for each aim how many of the records it is about meet it, and the worst of them.
pub fn print(records: &[Record]) {
    let columns = ["aim", "ratio", "meet it", "worst", "by best times", "where", "met"];
    heading("Aims: the product, lent 4^w words, over its rival", &columns);
    for (what, bound, is_about) in AIMS {
        let about: Vec<&Record> = records.iter().filter(|record| is_about(record)).collect();
        let met = about.iter().filter(|record| bound.is_met(record.ratio)).count();
        let Some(worst) = about.iter().max_by(|one, other| one.ratio.total_cmp(&other.ratio)) else {
            println!("| {what} | {} | not measured | | | | |", bound.said());
            continue;
        };
        let Record { pair, shift, task, ratio, best, .. } = worst;
        let (bound, count, verdict) = (bound.said(), about.len(), verdict(met, about.len()));
        println!("| {what} | {bound} | {met} of {count} | {ratio:.3} | {best:.3} | {pair} {shift} {task} | {verdict} |");
    }
}

#[cfg(test)]
mod tests {
    use super::*;

    #[test]
    fn faster_is_not_as_fast() {
        assert!(Below(1.0).is_met(0.99) && !Below(1.0).is_met(1.0));
        assert!(AtMost(1.0).is_met(1.0) && !AtMost(1.0).is_met(1.01));
        assert_eq!([verdict(0, 3), verdict(2, 3), verdict(3, 3)], ["**no**", "**in part**", "yes"]);
    }

    #[test]
    fn an_aim_is_about_its_own_records() {
        let record = |rival, pair, task| Record { rival, pair, shift: "(1, 1)".into(), task, ratio: 1.0, best: 1.0 };
        let about = |record: Record| AIMS.map(|(_, _, is_about)| u8::from(is_about(&record)));
        assert_eq!(about(record(Rival::RasterRoute, "smooth", "window")), [1, 1, 0, 0, 0, 0, 0, 0, 0, 0]);
        assert_eq!(about(record(Rival::RasterRoute, "middling", "window")), [0, 0, 1, 0, 0, 0, 0, 0, 0, 0]);
        assert_eq!(about(record(Rival::RasterRoute, "ragged", "difference")), [0, 0, 0, 0, 0, 1, 0, 0, 0, 0]);
        assert_eq!(about(record(Rival::ByHand, "ragged", "window")), [0, 0, 0, 0, 0, 0, 1, 0, 0, 0]);
        assert_eq!(about(record(Rival::CellUnions, "black and white", "union")), [0, 0, 0, 0, 0, 0, 0, 0, 0, 1]);
    }
}
