//! Two sides of one question, and how their times compare. A time is the least of some, since what else
//! runs on the machine only adds to it.
use std::hint::black_box;
use std::rc::Rc;
use std::time::{Duration, Instant};

const ROUNDS: usize = 50;

/// What a round of the slower side takes at least.
const ROUND: Duration = Duration::from_millis(2);

/// A pass over all texts of a family, by each side: the original and the library, or a call on a book
/// and the readings of its keys.
pub struct Family {
    pub name: String,
    upper: Rc<dyn Fn()>,
    lower: Rc<dyn Fn()>,
}

impl Family {
    pub fn new(name: String, upper: impl Fn() + 'static, lower: impl Fn() + 'static) -> Self {
        Self { name, upper: Rc::new(upper), lower: Rc::new(lower) }
    }

    /// One pass over all texts of some families.
    pub fn together(name: &str, families: &[Self]) -> Self {
        let passes = |side: fn(&Self) -> Rc<dyn Fn()>| {
            let sides: Vec<_> = families.iter().map(side).collect();
            move || sides.iter().for_each(|side| side())
        };
        let (upper, lower) = (passes(|one| one.upper.clone()), passes(|one| one.lower.clone()));
        Self::new(name.into(), upper, lower)
    }

    /// Time of the first side over time of the second, of each the least of its rounds.
    pub fn ratio(&self) -> f64 {
        let passes = self.passes();
        let round = |_| [&self.upper, &self.lower].map(|side| time(passes, &**side));
        let least = |least: [Duration; 2], round: [Duration; 2]| {
            [least[0].min(round[0]), least[1].min(round[1])]
        };
        let [upper, lower] = (0..ROUNDS).map(round).fold([Duration::MAX; 2], least);
        upper.as_secs_f64() / lower.as_secs_f64()
    }

    /// So many passes by one side, for a count of its instructions.
    pub fn run(&self, upper: bool, passes: u32) {
        let side = if upper { &self.upper } else { &self.lower };
        (0..passes).for_each(|_| side());
    }

    fn passes(&self) -> u32 {
        let least = |passes, side: &dyn Fn()| (0..5).map(|_| time(passes, side)).min();
        let slower = |passes| least(passes, &*self.upper).max(least(passes, &*self.lower));
        (0..)
            .map(|doubled| 1 << doubled)
            .find(|passes| slower(*passes) >= Some(ROUND))
            .expect("time passes")
    }
}

fn time(passes: u32, side: &dyn Fn()) -> Duration {
    let begun = Instant::now();
    for _ in 0..passes {
        side();
    }
    begun.elapsed()
}

/// Takes an answer, so that it is worked out.
pub fn keep<T>(answer: T) {
    let _ = black_box(answer);
}
