//! Random lists of records with all causes different, each in several orders, through both sides (document 02, change 8), up to the first
//! difference.

use crate::compare;
use crate::describe;
use cases::order_claims;
use cases::random::Random;
use cases::record_orders::{self, causes_differ, in_another_order};
use cases::samples::SampleCase;
use cases::tally::decided_by_tie;
use reference::answer::Answer;
use std::fmt::{Display, Formatter, Result as Written};

/// How many random orders of a list are tried beside its own.
const ORDERS: u64 = 3;

/// How many lists there were, and of which sort.
#[derive(Default)]
pub struct Counts {
    lists: u64,
    /// Orders that are not the list's own.
    other_orders: u64,
    with_two_records: u64,
    decided_by_tie: u64,
    censored: u64,
    refused: u64,
    /// Lists with a cause twice, and those of them that another order answers otherwise.
    repeated: u64,
    order_matters: u64,
}

impl Display for Counts {
    fn fmt(&self, f: &mut Formatter<'_>) -> Written {
        write!(
            f,
            "{} lists with all causes different and {} other orders of them ({} with two records or more, {} decided by the tie \
             choice, {} censored, {} refused), no difference; of {} with a cause twice another order answers {} otherwise",
            self.lists,
            self.other_orders,
            self.with_two_records,
            self.decided_by_tie,
            self.censored,
            self.refused,
            self.repeated,
            self.order_matters
        )
    }
}

/// The worked lists, then as many random ones as asked for.
pub fn run(seed: u64, count: u64) -> Result<Counts, String> {
    for (case, answer) in record_orders::worked() {
        if compare::sample(&case, &[])?.0 != answer {
            return Err(parted("a worked list is answered otherwise", &[&case]));
        }
    }
    let mut random = Random::new(seed);
    let mut counts = Counts::default();
    for index in 0..count {
        let place = |difference| format!("list {index} of seed {seed}: {difference}");
        let case = record_orders::with_different_causes(&mut random);
        let (answer, moved) = in_orders(&mut random, &case).map_err(place)?;
        counts.other_orders += moved;
        counts.add(&case, &answer);
        counts.add_repeated(&mut random);
    }
    if counts.other_orders == 0 || counts.order_matters == 0 {
        return Err(format!("seed {seed}: no list stood in another order"));
    }
    Ok(counts)
}

/// Both sides agree on the list in every order, and the answer is the same in each; what document 02 says of an answer holds. Gives the
/// answer, and how many orders were not the list's own.
fn in_orders(random: &mut Random, case: &SampleCase) -> Result<(Answer, u64), String> {
    let (answer, position) = compare::sample(case, &[])?;
    if answer.number == 0
        && let Some(sentence) = order_claims::broken(case, &answer)
    {
        return Err(parted(sentence, &[case]));
    }
    let mut moved = 0;
    for _ in 0..ORDERS {
        let other = in_another_order(random, case);
        moved += u64::from(causes(&other) != causes(case));
        if compare::sample(&other, &[])? != (answer, position) {
            return Err(parted(
                "another order is answered otherwise",
                &[case, &other],
            ));
        }
    }
    Ok((answer, moved))
}

fn causes(case: &SampleCase) -> Vec<u32> {
    let records = case.request.used().iter();
    records.map(|record| record.cause).collect()
}

fn parted(what: &str, cases: &[&SampleCase]) -> String {
    let words = cases.iter().map(|case| {
        let (answer, position) = case.expected();
        let case = describe::sample_case(case);
        format!("\n{case}\n{answer:?}, position after {position}")
    });
    what.to_string() + &words.collect::<String>()
}

impl Counts {
    fn add(&mut self, case: &SampleCase, answer: &Answer) {
        self.lists += 1;
        self.with_two_records += u64::from(case.request.n >= 2);
        self.decided_by_tie += u64::from(decided_by_tie(case));
        self.censored += u64::from(answer.censored);
        self.refused += u64::from(answer.number != 0);
    }

    /// A random list, if one of its causes stands there twice.
    fn add_repeated(&mut self, random: &mut Random) {
        let case = SampleCase::random(random);
        let other = in_another_order(random, &case);
        if !causes_differ(&case.request) {
            self.repeated += 1;
            self.order_matters += u64::from(case.expected() != other.expected());
        }
    }
}
