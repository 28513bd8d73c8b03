//! Measures the proved library beside the original Rust: the same sheets,
//! chains and trees, one program, one run; then the peers. Run it by compare/run;
//! docs/BENCHMARK.md says what is measured. Exit status 0: measured; 1: the answers differ; 2:
//! bad usage, or a file that could not be written.

mod beside;
mod chains;
// A sheet is measured only where the comparison of sheets finds no difference.
#[path = "../sheets/check.rs"]
mod check;
mod direct;
mod families;
mod groups;
mod models;
mod peers;
mod subjects;
mod table;
mod time;
mod totals;
mod wide;
mod worst;

use families::Growth;
use groups::Group;
use subjects::Subject;
use table::Row;

/// The names by which the peers, and all families, are chosen.
const PEERS: &str = "peers";
const FAMILIES: &str = "families";

struct Options {
    seed: u64,
    rounds: usize,
    /// The one group to measure.
    group: Option<String>,
}

impl Options {
    fn wants(&self, name: &str) -> bool {
        self.group.as_deref().is_none_or(|only| only == name)
    }

    /// By its own name, its family's or that of all families.
    fn wants_group(&self, group: &Group) -> bool {
        let family = |(family, _)| self.wants(family) || self.wants(FAMILIES);
        self.wants(&group.name) || group.family.is_some_and(family)
    }
}

fn main() {
    let options = options();
    print_load();
    let mut groups = groups::every();
    groups.retain(|group| options.wants_group(group));
    if beside::EARLIER.is_some() {
        return beside::print(&groups, options.seed, options.rounds);
    }
    print_groups(&groups, &options);
    if options.wants(chains::NAME) {
        chains::print(options.seed, options.rounds);
    }
    if options.wants(totals::NAME) {
        totals::print(options.seed, options.rounds);
    }
    if options.wants(PEERS)
        && let Err(error) = peers::print(options.rounds)
    {
        eprintln!("the peers' schemas could not be written: {error}");
        std::process::exit(2);
    }
}

/// What else the machine does, as the system counts it: a table that was made
/// on a busy machine says so.
fn print_load() {
    let cores = std::thread::available_parallelism().map_or(1, usize::from);
    let averages = std::fs::read_to_string("/proc/loadavg").unwrap_or_default();
    let load = averages.split(' ').next().filter(|load| !load.is_empty());
    println!("Load before the run: {}, cores: {cores}.\n", load.unwrap_or("unknown"));
}

fn print_groups(groups: &[Group], options: &Options) {
    let mut highest = None;
    let mut growths: Vec<Growth> = Vec::new();
    for (place, group) in groups.iter().enumerate() {
        let subjects = subjects::ready(&group.name, &group.sheets(options.seed));
        if place == 0 {
            table::print_head("sheets", "particles");
        }
        for (mark, part) in parts(&subjects) {
            let times = time::marking(&part, options.rounds);
            let bytes = part.iter().map(|subject| subject.bytes.len()).sum();
            let row = Row { group: &group.name, mark, count: part.len(), bytes, times };
            println!("{row}");
            let ratio = row.times.ratio().unwrap_or(0.0);
            if highest.is_none_or(|(highest, _)| ratio > highest) {
                highest = Some((ratio, &group.name));
            }
            if let Some(family) = group.family {
                families::add(&mut growths, family, row.times);
            }
        }
    }
    if let Some((ratio, name)) = highest {
        println!("\nThe highest ratio is {ratio:.2}, in the group '{name}'.");
    }
    families::print(&growths);
}

/// The group whole, then by the mark.
fn parts(subjects: &[Subject]) -> Vec<(&'static str, Vec<&Subject>)> {
    let part = |low: u32, high: u32| {
        subjects.iter().filter(|s| (low..=high).contains(&s.mark)).collect::<Vec<_>>()
    };
    let mut out = vec![("all", part(0, u32::MAX))];
    let marks = [("passes", part(0, 0)), ("undecided", part(1, 1)), ("fails", part(2, u32::MAX))];
    if subjects.len() > 1 {
        out.extend(marks.into_iter().filter(|(_, part)| !part.is_empty()));
    }
    out
}

fn options() -> Options {
    let mut options = Options { seed: 1, rounds: 60, group: None };
    let mut words = std::env::args().skip(1);
    while let Some(word) = words.next() {
        let Some(value) = words.next() else { usage(&format!("{word} wants a value")) };
        let number = || match value.parse() {
            Ok(number) if number > 0 => number,
            _ => usage(&format!("{word} wants a number above 0")),
        };
        match word.as_str() {
            "--seed" => options.seed = number() as u64,
            "--rounds" => options.rounds = number(),
            "--group" => options.group = Some(group(value)),
            _ => usage(&format!("unknown argument {word}")),
        }
    }
    options
}

/// The name of a group, of a family, of the chains, of the total ranges, or of the
/// peers.
fn group(name: String) -> String {
    let others = [FAMILIES, chains::NAME, totals::NAME, PEERS].map(String::from);
    let families = families::every().into_iter().map(|family| family.name.into());
    let names = groups::every().into_iter().map(|group| group.name).chain(families).chain(others);
    let names: Vec<String> = names.collect();
    if !names.contains(&name) {
        usage(&format!("there is no group '{name}', but: {}", names.join("; ")));
    }
    name
}

fn usage(message: &str) -> ! {
    eprintln!("{message}\nusage: compare/run bench [--seed S] [--rounds N] [--group NAME]");
    std::process::exit(2);
}
