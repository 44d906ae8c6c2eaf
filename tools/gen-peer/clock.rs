//! The time that each part takes.

use std::time::Instant;

#[derive(Clone, Copy)]
pub enum Part {
    Source,
    Regrouping,
    Statistics,
    Hash,
    Encoding,
    Zones,
    Sink,
    Reading,
    Applying,
}

const NAMES: [&str; 9] = [
    "source",
    "regrouping",
    "statistics",
    "hash",
    "encoding",
    "zones",
    "sink",
    "reading",
    "applying",
];

/// Looks at the time only where it is on.
pub struct Clock {
    start: Option<Instant>,
    nanos: [u128; NAMES.len()],
}

impl Clock {
    pub fn new(on: bool) -> Clock {
        Clock {
            start: on.then(Instant::now),
            nanos: [0; NAMES.len()],
        }
    }

    /// Does the work and counts its time to the part.
    pub fn time<T>(&mut self, part: Part, work: impl FnOnce() -> T) -> T {
        if self.start.is_none() {
            return work();
        }
        let start = Instant::now();
        let done = work();
        self.nanos[part as usize] += start.elapsed().as_nanos();
        done
    }

    /// Prints the nanoseconds of each part and of all since the clock was made.
    pub fn print(&self) {
        let Some(start) = self.start else { return };
        let whole = start.elapsed().as_nanos();
        for (name, nanos) in NAMES.iter().zip(self.nanos) {
            println!("{name} {nanos}");
        }
        println!("all {whole}");
    }
}
