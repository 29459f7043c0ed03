//! Compares the library with the reference, call by call, over the interface for C.
//!
//!     compare [SEED] [SCALE] [--only GROUP] [--broken NAME] [--each-broken] [--list]
//!
//! One line for each group with its number of cases. On a difference the case is printed whole, with exit status 1. Groups
//! run at the same time, one on each processor: the library may be called by any number of threads at once.

mod bound;
mod broken;
mod broken_bound;
mod broken_reasons;
mod cases;
mod expected;
mod first;
mod fronts;
mod library;
mod products;
mod program;
mod random;
mod reasons;
mod searches;
mod sheets;
mod starts;
mod windows;

use expected::{Expect, Outcome};
use random::Random;
use std::collections::{BTreeMap, BTreeSet};
use std::fmt::Debug;
use std::process::ExitCode;
use std::sync::atomic::{AtomicUsize, Ordering};
use std::sync::OnceLock;
use std::thread;
use std::time::Instant;

/// A group under way.
pub struct Run {
    pub random: Random,
    pub expect: Expect,
    scale: f64,
    cases: u64,
    /// How often each answer was expected, and at which places: 0 for a call that is taken, else the number of its refusal.
    answers: BTreeMap<i64, (u64, BTreeSet<i64>)>,
}

/// A difference, told with its case.
pub type Told = Result<(), String>;

impl Run {
    /// So many random cases, scaled as the command line asks.
    pub fn times(&self, base: usize) -> usize {
        (base as f64 * self.scale).ceil() as usize
    }

    /// Counts a case, and tells it whole if it differs.
    pub fn count(&mut self, call: &str, case: &dyn Debug, due: &Outcome, seen: Told) -> Told {
        self.cases += 1;
        let told = -due.answer.min(0);
        let (cases, places) = self.answers.entry(told % 256).or_default();
        *cases += 1;
        places.insert(told / 256);
        seen.map_err(|difference| format!("{call}\n{case:?}\nexpected: {due:?}\n{difference}"))
    }

    /// The number of cases, and how many of them were taken and refused.
    fn summary(&self) -> String {
        let kinds = self.answers.iter().map(|(number, (cases, places))| match (number, places.len()) {
            (0, _) => format!("taken {cases}"),
            (_, 1) => format!("refused {number}: {cases}"),
            (_, places) => format!("refused {number}: {cases} at {places} places"),
        });
        format!("{} cases agree ({})", self.cases, kinds.collect::<Vec<_>>().join(", "))
    }
}

struct Group {
    name: &'static str,
    run: fn(&mut Run) -> Told,
}

const GROUPS: [Group; 12] = [
    Group { name: "exhaustive", run: searches::exhaustive },
    Group { name: "random", run: searches::random },
    Group { name: "limits", run: searches::limits },
    Group { name: "refusals", run: searches::refusals },
    Group { name: "first", run: first::first },
    Group { name: "bound", run: bound::bound },
    Group { name: "reasons", run: reasons::reasons },
    Group { name: "products", run: products::products },
    Group { name: "read", run: sheets::read },
    Group { name: "write", run: sheets::write },
    Group { name: "reports", run: sheets::reports },
    Group { name: "program", run: program::program },
];

struct Options {
    seed: u64,
    scale: f64,
    only: Option<String>,
    broken: Option<&'static str>,
    each_broken: bool,
    list: bool,
}

fn options() -> Result<Options, String> {
    let mut options = Options { seed: 1, scale: 1.0, only: None, broken: None, each_broken: false, list: false };
    let mut numbers = 0;
    let mut arguments = std::env::args().skip(1);
    while let Some(argument) = arguments.next() {
        let mut value = || arguments.next().ok_or_else(|| format!("{argument} needs a name"));
        match argument.as_str() {
            "--only" => options.only = Some(value()?),
            "--broken" => {
                let name = value()?;
                let slip = broken::SLIPS.iter().find(|slip| slip.name == name);
                options.broken = Some(slip.ok_or_else(|| format!("no slip {name}, see --list"))?.name);
            }
            "--each-broken" => options.each_broken = true,
            "--list" => options.list = true,
            number => {
                let wrong = || format!("what is {number}?");
                match numbers {
                    0 => options.seed = number.parse().map_err(|_| wrong())?,
                    1 => options.scale = number.parse().map_err(|_| wrong())?,
                    _ => return Err(wrong()),
                }
                numbers += 1;
            }
        }
    }
    match &options.only {
        Some(only) if GROUPS.iter().all(|group| group.name != only) => Err(format!("no group {only}, see --list")),
        _ => Ok(options),
    }
}

/// Runs one group: its summary, or the first difference.
fn run(group: &Group, options: &Options, broken: Option<&'static str>) -> Result<String, String> {
    let random = Random::new(options.seed, group.name);
    let mut run = Run { random, expect: Expect { broken }, scale: options.scale, cases: 0, answers: BTreeMap::new() };
    (group.run)(&mut run).map(|_| run.summary())
}

/// The line that a group comes to, and whether all of its cases agree.
fn line(group: &Group, options: &Options) -> (String, bool) {
    let begin = Instant::now();
    match run(group, options, options.broken) {
        Ok(summary) => (format!("{}: {summary} in {:.1} s", group.name, begin.elapsed().as_secs_f64()), true),
        Err(difference) => {
            (format!("{}: DIFFERS (seed {}, scale {})\n{difference}", group.name, options.seed, options.scale), false)
        }
    }
}

/// Runs these groups, each by the next thread that is free, and prints their lines in their order.
fn compare(groups: &[&Group], options: &Options) -> bool {
    let next = AtomicUsize::new(0);
    let lines: Vec<OnceLock<(String, bool)>> = groups.iter().map(|_| OnceLock::new()).collect();
    thread::scope(|scope| {
        for _ in 0..thread::available_parallelism().map_or(1, usize::from) {
            scope.spawn(|| loop {
                let at = next.fetch_add(1, Ordering::Relaxed);
                let Some(group) = groups.get(at) else { break };
                lines[at].get_or_init(|| line(group, options));
            });
        }
    });
    let told: Vec<_> = lines.into_iter().filter_map(OnceLock::into_inner).collect();
    told.iter().for_each(|(line, _)| println!("{line}"));
    told.len() == groups.len() && told.iter().all(|(_, agrees)| *agrees)
}

/// Every slip must be noticed by every group that it names.
fn each_broken(options: &Options, wanted: &dyn Fn(&str) -> bool) -> bool {
    let mut all = true;
    for slip in broken::SLIPS {
        for group in GROUPS.iter().filter(|group| slip.groups.contains(&group.name) && wanted(group.name)) {
            let noticed = run(group, options, Some(slip.name)).is_err();
            all &= noticed;
            println!("{} {} {}", group.name, slip.name, if noticed { "noticed" } else { "NOT NOTICED" });
        }
    }
    all
}

fn main() -> ExitCode {
    let options = match options() {
        Ok(options) => options,
        Err(wrong) => {
            eprintln!("compare: {wrong}");
            return ExitCode::from(2);
        }
    };
    if options.list {
        GROUPS.iter().for_each(|group| println!("group {}", group.name));
        broken::SLIPS
            .iter()
            .for_each(|slip| println!("slip {} ({}): {}", slip.name, slip.groups.join(", "), slip.what));
        return ExitCode::SUCCESS;
    }
    let named = std::env::var_os("BREAKWARP_SEARCH").is_some();
    let wanted = |name: &str| options.only.as_ref().map_or(name != "program" || named, |only| only == name);
    if options.each_broken {
        return if each_broken(&options, &wanted) { ExitCode::SUCCESS } else { ExitCode::FAILURE };
    }
    let groups: Vec<&Group> = GROUPS.iter().filter(|group| wanted(group.name)).collect();
    let agree = compare(&groups, &options);
    if options.only.is_none() && !named {
        println!("program: not run, since BREAKWARP_SEARCH names no program");
    }
    if agree {
        ExitCode::SUCCESS
    } else {
        ExitCode::FAILURE
    }
}
