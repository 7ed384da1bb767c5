//! `compare quick` is for the gate, `compare full` for the list of differences; a word more, and only the
//! sets whose names begin with it are run. As many sets run at a time as the machine has cores. The last
//! line counts sets; the status is 0 where no set has a difference that is not listed.
use std::fmt::Write;
use std::ops::Add;
use std::process::ExitCode;
use std::sync::atomic::{AtomicUsize, Ordering};
use std::thread;
use std::time::Instant;

use compare::library::Library;
use compare::page::Page;
use compare::set::Set;
use compare::{NamedSet, Size, FAMILIES};

/// Sets that passed and failed, and their checks.
#[derive(Clone, Copy, Default)]
struct Tally {
    passed: u64,
    failed: u64,
    checks: u64,
}

impl Add for Tally {
    type Output = Self;

    fn add(self, other: Self) -> Self {
        Self {
            passed: self.passed + other.passed,
            failed: self.failed + other.failed,
            checks: self.checks + other.checks,
        }
    }
}

fn main() -> ExitCode {
    let size = match std::env::args().nth(1).as_deref() {
        Some("quick") => Size::Quick,
        Some("full") => Size::Full,
        _ => {
            eprintln!("compare quick|full [SETS]");
            return ExitCode::from(2);
        }
    };
    let chosen = std::env::args().nth(2).unwrap_or_default();
    let all = FAMILIES.iter().copied().flatten();
    let sets: Vec<&NamedSet> = all.filter(|(name, _)| name.starts_with(&chosen)).collect();
    if let Some(notice) = letters::notice() {
        println!("{notice}, on which the original is not asked by wide calls");
    }
    let Tally { passed, failed, checks } = run_all(&sets, size);
    println!("{checks} checks");
    println!("{passed} passed, {failed} failed");
    ExitCode::from(u8::from(failed > 0))
}

/// Each worker takes the next set that none has taken.
fn run_all(sets: &[&NamedSet], size: Size) -> Tally {
    let (page, next) = (Page::default(), AtomicUsize::new(0));
    let work = || {
        let mut tally = Tally::default();
        while let Some(set) = sets.get(next.fetch_add(1, Ordering::Relaxed)) {
            tally = tally + run(set, size, &page);
        }
        tally
    };
    thread::scope(|scope| {
        let cores = thread::available_parallelism().map_or(1, usize::from);
        let workers: Vec<_> = (0..cores).map(|_| scope.spawn(work)).collect();
        let tallies = workers.into_iter().map(|worker| worker.join().expect("a worker's tally"));
        tallies.fold(Tally::default(), Tally::add)
    })
}

/// Runs a set, and prints all of its lines at once.
fn run((name, run): &NamedSet, size: Size, page: &Page) -> Tally {
    let (mut library, begun) = (Library::default(), Instant::now());
    let mut set = Set::new(&mut library, page);
    run(&mut set, size);
    set.finish();
    let mut report = format!("{name}: {set}, {:.1} s\n", begun.elapsed().as_secs_f64());
    for difference in set.shown() {
        writeln!(report, "  {difference}").expect("a String takes all");
    }
    print!("{report}");
    let passed = u64::from(set.passed());
    Tally { passed, failed: 1 - passed, checks: set.checks() }
}
