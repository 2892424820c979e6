//! How times and settings stand in a table.

use isolated::Settings;

/// A time in a unit that reads well.
pub fn time(nanoseconds: f64) -> String {
    match nanoseconds {
        t if t < 1e3 => format!("{t:.0} ns"),
        t if t < 1e6 => format!("{:.1} µs", t / 1e3),
        t if t < 1e9 => format!("{:.1} ms", t / 1e6),
        t => format!("{:.2} s", t / 1e9),
    }
}

/// The numbers of notion and kind, and c.
pub fn settings(settings: Settings) -> String {
    format!("{} {} {}", settings.notion.number(), settings.kind.number(), settings.c)
}
