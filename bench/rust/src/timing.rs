//! How a side is timed: its runs with the calls, less runs of as many turns without them.

use std::fs;
use std::path::Path;

use paper::store::Bytes;

use crate::clock::run;

/// What to measure, and how.
pub struct Plan {
    /// Folder for the inputs.
    pub folder: String,
    /// The Rattle program.
    pub program: Vec<String>,
    /// This binary's own turns.
    pub rust: Vec<String>,
    pub runs: usize,
    /// The built bench/copies.c, where copies are to be counted and nothing timed.
    pub counter: Option<String>,
    /// Only cases whose name holds this.
    pub only: String,
    /// How long a run shall take, in nanoseconds.
    pub aim: u64,
}

/// A side's nanoseconds a call: the middle of the runs, the least and the most.
pub struct Times {
    pub middle: f64,
    pub least: f64,
    pub most: f64,
}

/// A side: its name, its command, the input of so many turns with or without their calls, and the calls of a turn.
pub struct Side<'a> {
    pub name: &'a str,
    pub words: &'a [String],
    pub input: &'a dyn Fn(u64, bool) -> Bytes,
    pub calls: u64,
}

impl Side<'_> {
    /// The input of so many turns, written to a file.
    pub fn written(&self, plan: &Plan, turns: u64, made: bool) -> Result<String, String> {
        let path = Path::new(&plan.folder).join(self.name);
        fs::write(&path, (self.input)(turns, made)).map_err(|error| format!("{}: {error}", path.display()))?;
        Ok(path.to_string_lossy().into_owned())
    }

    /// What one run of so many turns wrote, and its time.
    pub fn once(&self, plan: &Plan, turns: u64, made: bool) -> Result<(Bytes, u64), String> {
        run(self.words, &self.written(plan, turns, made)?)
    }

    /// The turns that take about the time aimed at.
    fn enough(&self, plan: &Plan) -> Result<u64, String> {
        let (_, start) = self.once(plan, 0, true)?;
        let mut turns = 1;
        loop {
            let (_, time) = self.once(plan, turns, true)?;
            let time = time.saturating_sub(start);
            if time * 8 > plan.aim {
                return Ok((turns * plan.aim / time).max(1));
            }
            turns *= 4;
        }
    }

    /// Nanoseconds a call: the turns with their calls, less the same turns without.
    fn one_run(&self, plan: &Plan, turns: u64) -> Result<f64, String> {
        let (_, with) = self.once(plan, turns, true)?;
        let (_, without) = self.once(plan, turns, false)?;
        Ok((with as f64 - without as f64) / (turns * self.calls) as f64)
    }
}

/// The times of some sides, taken in turns.
pub fn times(plan: &Plan, sides: &[Side]) -> Result<Vec<Times>, String> {
    let turns: Vec<u64> = sides.iter().map(|side| side.enough(plan)).collect::<Result<_, _>>()?;
    let mut times = vec![Vec::new(); sides.len()];
    for _ in 0..plan.runs {
        for ((side, turns), times) in sides.iter().zip(&turns).zip(&mut times) {
            times.push(side.one_run(plan, *turns)?);
        }
    }
    Ok(times.into_iter().map(middle).collect())
}

fn middle(mut runs: Vec<f64>) -> Times {
    runs.sort_by(f64::total_cmp);
    Times { middle: runs[runs.len() / 2], least: runs[0], most: runs[runs.len() - 1] }
}
