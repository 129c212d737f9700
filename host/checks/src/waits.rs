//! How long packets waited from door to door, beside the promised most.

use std::collections::BTreeMap;
use std::fmt;

use crate::watch::{Wait, Watch};

/// Waits of one kind with the same most: how many, the longest, and how many
/// were as long as they may be.
#[derive(Debug, Clone, Copy, Default, PartialEq, Eq)]
pub struct Waits {
    pub most: u32,
    pub times: u64,
    pub longest: u32,
    pub reached: u64,
}

impl Waits {
    fn note(&mut self, wait: Wait) {
        self.add(&Waits {
            most: wait.most,
            times: 1,
            longest: wait.rounds,
            reached: u64::from(wait.rounds == wait.most),
        });
    }

    fn add(&mut self, other: &Waits) {
        self.most = self.most.max(other.most);
        self.times += other.times;
        self.longest = self.longest.max(other.longest);
        self.reached += other.reached;
    }
}

/// By how many were ahead; at random, then aimed.
type Table = BTreeMap<u32, [Waits; 2]>;

#[derive(Debug, Clone, Default, PartialEq, Eq)]
pub struct Tally {
    pub starts: u64,
    /// Starts with a packet to watch.
    pub watched: u64,
    /// Whose stitch found too little credit, so that nothing was promised.
    pub uncovered: u64,
    /// By how many were ahead in ingress.
    pub to_stitch: Table,
    /// By how many were ahead in the line.
    pub to_leave: Table,
    /// The same, counted from the arrival on.
    pub door_to_door: Table,
}

impl Tally {
    /// A packet's waits, of a start that was aimed or not.
    pub fn note(&mut self, aimed: bool, watch: &Watch) {
        let column = usize::from(aimed);
        let note = |table: &mut Table, ahead: u32, wait: Wait| {
            table.entry(ahead).or_default()[column].note(wait);
        };
        self.watched += 1;
        let (line, wait) = match watch.stitched {
            Some(stitched) => stitched,
            None => return,
        };
        note(&mut self.to_stitch, watch.ahead, wait);
        self.uncovered += u64::from(!line.covered);
        if let (true, Some(left), Some(both)) = (line.covered, watch.left, watch.door_to_door()) {
            note(&mut self.to_leave, line.ahead, left);
            note(&mut self.door_to_door, line.ahead, both);
        }
    }

    /// The kinds of waits of which there are none, at random or aimed.
    pub fn missing(&self) -> Vec<&'static str> {
        let kinds = [
            (&self.to_stitch, ["stitched, at random", "stitched, aimed"]),
            (&self.to_leave, ["left, at random", "left, aimed"]),
        ];
        let none = |table: &Table, column: usize| table.values().all(|row| row[column].times == 0);
        let mut missing = Vec::new();
        for (table, names) in kinds {
            for (column, name) in names.into_iter().enumerate() {
                if none(table, column) {
                    missing.push(name);
                }
            }
        }
        missing
    }

    pub fn add(&mut self, other: &Tally) {
        self.starts += other.starts;
        self.watched += other.watched;
        self.uncovered += other.uncovered;
        for (mine, theirs) in [
            (&mut self.to_stitch, &other.to_stitch),
            (&mut self.to_leave, &other.to_leave),
            (&mut self.door_to_door, &other.door_to_door),
        ] {
            for (ahead, columns) in theirs {
                let cell = mine.entry(*ahead).or_default();
                for (waits, more) in cell.iter_mut().zip(columns) {
                    waits.add(more);
                }
            }
        }
    }
}

impl fmt::Display for Tally {
    fn fmt(&self, f: &mut fmt::Formatter<'_>) -> fmt::Result {
        self.say_stitched(f)?;
        self.say_left(f)?;
        let waits = || self.door_to_door.values().flatten();
        let all: u64 = waits().map(|w| w.times).sum();
        let reached: u64 = waits().map(|w| w.reached).sum();
        write!(
            f,
            "\nfrom arrival to departure: {all}, of which {reached} took all the rounds that they may"
        )
    }
}

impl Tally {
    fn say_stitched(&self, f: &mut fmt::Formatter<'_>) -> fmt::Result {
        writeln!(
            f,
            "{} packets watched, {} of them stitched without credit for all",
            self.watched, self.uncovered
        )?;
        for (column, how) in [(0, "at random"), (1, "aimed")] {
            let mut all = Waits::default();
            self.to_stitch
                .values()
                .for_each(|row| all.add(&row[column]));
            writeln!(
                f,
                "stitched, {how}: {}, with up to {} ahead in ingress; {} in round s + 1",
                all.times,
                all.most.saturating_sub(1),
                all.reached
            )?;
        }
        Ok(())
    }

    fn say_left(&self, f: &mut fmt::Formatter<'_>) -> fmt::Result {
        writeln!(
            f,
            "\nrounds from the stitch on, by packets ahead in the line:\n"
        )?;
        writeln!(
            f,
            "| ahead | most | at random | longest | reached | aimed | longest | reached |"
        )?;
        writeln!(f, "|---|---|---|---|---|---|---|---|")?;
        for (ahead, row) in &self.to_leave {
            write!(f, "| {ahead} | {} |", row[0].most.max(row[1].most))?;
            for waits in row {
                let Waits {
                    times,
                    longest,
                    reached,
                    ..
                } = waits;
                write!(f, " {times} | {longest} | {reached} |")?;
            }
            writeln!(f)?;
        }
        Ok(())
    }
}
