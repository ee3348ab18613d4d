//! One link's word about another (Req 13): pairs of nights that differ on the lanes
//! of a set A, of which the request's supposition holds.
//!
//! * `registers`: which bits belong to a lane.
//! * `statement`: what a moment of two runs may be, what is supposed of them, and what
//!   is then the same in both.
//! * `pairs`, `writes`: pairs made moment by moment, and what becomes of a write.
//! * `wanted`, `counts`: what must occur, and the counts of what did.
//!
//! A pair is three files: a night for each run, and a text with a line `lanes` and the
//! lanes of A, then a line for each moment, `both`, `first` or `second`.

mod counts;
mod pairs;
mod registers;
mod statement;
mod wanted;
mod writes;

pub use self::counts::Counts;
pub use self::pairs::{make_pair, Pair};
use self::statement::{Moment, RUNS};
use crate::nights::{night_file, Made, FOURTH};
use second::lanes::LaneSet;

impl Pair {
    /// The files of a pair with their names.
    pub fn files(&self, index: usize) -> [(String, Vec<u8>); 3] {
        let [first, second] = RUNS.map(|run| night_file(FOURTH, &self.night(run)));
        let named = |name: &str| format!("{:05}.{}", index, name);
        [
            (named("first.night"), first),
            (named("second.night"), second),
            (named("moments"), self.side_by_side().into_bytes()),
        ]
    }

    /// The night of a run.
    fn night(&self, run: usize) -> Made {
        let events = self.moments.iter().filter_map(|moment| moment.events()[run]).collect();
        Made { image: self.image, events }
    }

    /// The text that lays the two nights side by side.
    fn side_by_side(&self) -> String {
        let mut text = "lanes".to_string();
        for lane in LaneSet(self.a.lanes) {
            text += &format!(" {}", lane);
        }
        text += "\n";
        for moment in &self.moments {
            text += match moment {
                Moment::Both(_) => "both\n",
                Moment::One(0, _) => "first\n",
                Moment::One(_, _) => "second\n",
            };
        }
        text
    }

    /// All of it in words: no file holds both condition events.
    pub fn told(&self) -> String {
        let mut told = format!("A {:08b}\nimage {:02x?}\n", self.a.lanes, &self.image[..]);
        for moment in &self.moments {
            told += &format!("{:?}\n", moment);
        }
        told
    }
}
