//! Prints how fast the proved services are beside the second opinion, the floor and the peer.
//!
//! `--markdown` prints the tables as markdown, `--into FILE` puts them into a document, `--svg FILE` draws the workloads.
#![forbid(unsafe_code)]

use nevolisca_bench::table::Table;
use nevolisca_bench::{goals, joined, machine, picture, planning, services};
use std::process::ExitCode;

const USAGE: &str = "usage: nevolisca-bench [--markdown] [--into FILE] [--svg FILE]";
/// The lines of a document between which the tables stand.
const FIRST_LINE: &str = "<!-- tables: written by the measuring program -->\n";
const LAST_LINE: &str = "<!-- end of the tables -->\n";

/// What the caller asked for.
#[derive(Default)]
struct Wanted {
    markdown: bool,
    into: Option<String>,
    svg: Option<String>,
}

/// The arguments, or nothing where they are wrong.
fn wanted(mut arguments: impl Iterator<Item = String>) -> Option<Wanted> {
    let mut wanted = Wanted::default();
    while let Some(argument) = arguments.next() {
        match argument.as_str() {
            "--markdown" => wanted.markdown = true,
            "--into" => wanted.into = Some(arguments.next()?),
            "--svg" => wanted.svg = Some(arguments.next()?),
            _ => return None,
        }
    }
    Some(wanted)
}

/// Measures everything and prints each table as soon as it is there.
fn tables(print: impl Fn(&Table)) -> (Vec<Table>, Vec<planning::Measured>) {
    let services = services::measure();
    let mut tables = vec![
        services.table(),
        joined::table(services.joined()),
        services.by_page(),
        services.against_floor(),
    ];
    tables.iter().for_each(&print);
    let planned = planning::measure();
    let mut rest = vec![
        planning::table(&planned),
        planning::beyond_the_gate(&planned),
    ];
    rest.extend(planning::growth());
    rest.extend([goals::table(&services, &planned), machine::table()]);
    rest.iter().for_each(&print);
    tables.append(&mut rest);
    (tables, planned)
}

/// Replaces the tables of a document.
fn put_into(file: &str, tables: &[Table]) -> Result<(), String> {
    let document = std::fs::read_to_string(file).map_err(|error| error.to_string())?;
    let parts = document.split_once(FIRST_LINE);
    let parts = parts.and_then(|(before, rest)| Some((before, rest.split_once(LAST_LINE)?.1)));
    let (before, after) = parts.ok_or("has no lines around its tables")?;
    let text: Vec<String> = tables.iter().map(|table| table.text(true)).collect();
    let whole = [
        before,
        FIRST_LINE,
        "\n",
        &text.join("\n"),
        "\n",
        LAST_LINE,
        after,
    ]
    .concat();
    std::fs::write(file, whole).map_err(|error| error.to_string())
}

fn main() -> ExitCode {
    let Some(wanted) = wanted(std::env::args().skip(1)) else {
        eprintln!("{USAGE}");
        return ExitCode::FAILURE;
    };
    let (tables, planned) = tables(|table| println!("{}", table.text(wanted.markdown)));
    let drawn = wanted.svg.as_ref().map_or(Ok(()), |file| {
        std::fs::write(file, picture::draw(&planned)).map_err(|error| error.to_string())
    });
    let put = wanted
        .into
        .as_ref()
        .map_or(Ok(()), |file| put_into(file, &tables));
    match drawn.and(put) {
        Ok(()) => ExitCode::SUCCESS,
        Err(error) => {
            eprintln!("{error}");
            ExitCode::FAILURE
        }
    }
}
