//! What the numbers were taken on: processor, cores, compiler, date and load.
#![forbid(unsafe_code)]

use crate::table::Table;
use std::time::{SystemTime, UNIX_EPOCH};

const SECONDS_PER_DAY: u64 = 86_400;

/// The machine as a table.
pub fn table() -> Table {
    let mut table = Table::new("Machine", &["What", "value"]);
    let cores = std::thread::available_parallelism().map_or(1, |cores| cores.get());
    let seconds = SystemTime::now().duration_since(UNIX_EPOCH);
    let days = seconds.map_or(0, |since| since.as_secs() / SECONDS_PER_DAY);
    let mut push = |what: &str, value: String| table.rows.push(vec![what.to_string(), value]);
    push("processor", processor());
    push("cores", cores.to_string());
    push("compiler of this Rust", env!("RUSTC_VERSION").to_string());
    push("date", date(days));
    push("load at the end of the run (1, 5, 15 minutes)", load());
    table
}

/// The processor's model, as the system names it.
fn processor() -> String {
    let text = std::fs::read_to_string("/proc/cpuinfo").unwrap_or_default();
    let line = text.lines().find(|line| line.starts_with("model name"));
    let name = line.and_then(|line| line.split_once(':'));
    name.map_or("unknown", |(_, name)| name.trim()).to_string()
}

/// The load averages.
fn load() -> String {
    let text = std::fs::read_to_string("/proc/loadavg").unwrap_or_default();
    let loads: Vec<&str> = text.split(' ').take(3).collect();
    loads.join(", ")
}

/// The civil date of a day since the first of January 1970.
fn date(days: u64) -> String {
    let leap = |year: u64| year % 4 == 0 && year % 100 != 0 || year % 400 == 0;
    let (mut year, mut day) = (1970, days);
    while day >= 365 + u64::from(leap(year)) {
        day -= 365 + u64::from(leap(year));
        year += 1;
    }
    let february = 28 + u64::from(leap(year));
    let mut month = 1;
    for length in [31, february, 31, 30, 31, 30, 31, 31, 30, 31, 30, 31] {
        if day < length {
            break;
        }
        day -= length;
        month += 1;
    }
    format!("{year}-{month:02}-{:02}", day + 1)
}
