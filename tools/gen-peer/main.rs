//! The generated table as one would write it by hand in Rust: typed columns, one pass, the segments of `vx_tool gen`.
//!
//!   gen-peer N              prints the summary that `vx_tool gen N` prints
//!   gen-peer N --parts      also the nanoseconds of each part
//!   gen-peer N --segments   prints each segment: its number, its length, its bytes in hex

mod clock;
mod column;
mod numbers;
mod reading;
mod segment;
mod slots;
mod source;
#[cfg(test)]
mod tests;
mod texts;
mod writer;
mod zones;

use clock::{Clock, Part};
use column::Column;
use numbers::Numbers;
use source::{Batch, Source};
use std::io::{self, BufWriter, Write};
use std::{env, process};
use texts::Texts;
use writer::{ColumnWriter, Data, Sink};
use zones::{Cell, Zones};

/// What is known of the segments.
struct Layout {
    ids: Data,
    cities: Data,
    amounts: Data,
    zones: [usize; 3],
}

/// The columns that are written.
struct Columns {
    ids: ColumnWriter<Numbers<false>>,
    cities: ColumnWriter<Texts>,
    amounts: ColumnWriter<Numbers<true>>,
}

impl Columns {
    /// What leaves with a batch comes before what leaves with the next.
    fn push(&mut self, batch: &Batch, sink: &mut Sink, clock: &mut Clock) {
        self.ids.push(&batch.ids, sink, clock);
        self.cities.push(&batch.cities, sink, clock);
        self.amounts.push(&batch.amounts, sink, clock);
    }

    /// With the last batch all that is left of a column leaves before the next column. The tables of zones come last.
    fn finish(self, last: Option<&Batch>, sink: &mut Sink, clock: &mut Clock) -> Layout {
        let (ids, id_zones) = end(self.ids, last.map(|batch| &batch.ids), sink, clock);
        let (cities, city_zones) = end(self.cities, last.map(|batch| &batch.cities), sink, clock);
        let amounts = last.map(|batch| &batch.amounts);
        let (amounts, amount_zones) = end(self.amounts, amounts, sink, clock);
        let zones = clock.time(Part::Zones, || {
            let ids = push_table(id_zones, sink);
            let cities = push_table(city_zones, sink);
            [ids, cities, push_table(amount_zones, sink)]
        });
        Layout {
            ids,
            cities,
            amounts,
            zones,
        }
    }
}

fn write(rows: u32, sink: &mut Sink, clock: &mut Clock) -> Layout {
    let mut source = Source::new(rows);
    let mut columns = Columns {
        ids: ColumnWriter::new(),
        cities: ColumnWriter::new(),
        amounts: ColumnWriter::new(),
    };
    while let Some(batch) = clock.time(Part::Source, || source.next()) {
        if source.is_done() {
            return columns.finish(Some(&batch), sink, clock);
        }
        columns.push(&batch, sink, clock);
    }
    columns.finish(None, sink, clock)
}

fn end<C: Column>(
    mut column: ColumnWriter<C>,
    last: Option<&C>,
    sink: &mut Sink,
    clock: &mut Clock,
) -> (Data, Zones<C::Bound>) {
    if let Some(batch) = last {
        column.push(batch, sink, clock);
    }
    column.finish(sink, clock)
}

/// How many zones there are, with their table as a segment.
fn push_table<B: Cell>(zones: Zones<B>, sink: &mut Sink) -> usize {
    if zones.len() > 0 {
        sink.push(zones.table());
    }
    zones.len()
}

/// The rows that are read, as many in each column.
fn read(layout: &Layout, sink: &Sink, clock: &mut Clock) -> Option<u64> {
    let rows = reading::count::<Numbers<false>>(&layout.ids, sink, clock)?;
    let cities = reading::count::<Texts>(&layout.cities, sink, clock)?;
    let amounts = reading::count::<Numbers<true>>(&layout.amounts, sink, clock)?;
    (cities == rows && amounts == rows).then_some(rows)
}

fn print_segments(sink: &Sink) -> io::Result<()> {
    let mut out = BufWriter::new(io::stdout().lock());
    for (number, segment) in sink.iter().enumerate() {
        write!(out, "{number} {} ", segment.len())?;
        for byte in segment {
            write!(out, "{byte:02x}")?;
        }
        writeln!(out)?;
    }
    out.flush()
}

fn usage() -> ! {
    eprintln!("usage: gen-peer N [--parts | --segments]");
    process::exit(2)
}

fn main() -> io::Result<()> {
    let mut words = env::args().skip(1);
    let Some(rows) = words.next().and_then(|word| word.parse::<u32>().ok()) else {
        usage()
    };
    let option = words.next();
    if !matches!(option.as_deref(), None | Some("--parts" | "--segments")) {
        usage();
    }
    let mut clock = Clock::new(option.as_deref() == Some("--parts"));
    let mut sink = Sink::new();
    let layout = write(rows, &mut sink, &mut clock);
    if option.as_deref() == Some("--segments") {
        return print_segments(&sink);
    }
    let read = read(&layout, &sink, &mut clock).expect("what was written can be read");
    let bytes: usize = sink.iter().map(Vec::len).sum();
    let [ids, cities, amounts] = layout.zones;
    println!(
        "rows {rows}\nsegments {}\nbytes {bytes}\nzones {ids} {cities} {amounts}\nread {read}",
        sink.len()
    );
    clock.print();
    Ok(())
}
