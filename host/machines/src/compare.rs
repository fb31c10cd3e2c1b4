//! Calls made on a machine and answered by the second program, compared.

use crate::calls::{telling, Call, Lent, CALLS};
use crate::driver::{Driver, Left, Machine};
use fuzz::case::Case;
use fuzz::edge::Flush;
use std::collections::BTreeMap;
use std::fmt;

/// What was compared, and no difference found.
#[derive(Default)]
pub struct Tally {
    cases: u64,
    pub calls: u64,
    /// How often each refusal was given, 0 for a value.
    refusals: BTreeMap<u64, u64>,
    by_call: BTreeMap<&'static str, Seen>,
}

/// What was seen of one call: how often it gave a value, and the most stack that
/// it took.
#[derive(Default)]
struct Seen {
    values: u64,
    stack: u64,
}

impl Tally {
    /// Makes every call on each of the cases, on a machine.
    pub fn of(machine: Machine, cases: impl Iterator<Item = Case>) -> Tally {
        let mut driver = Driver::start(machine);
        let mut tally = Tally::default();
        for case in cases {
            tally.cases += 1;
            for call in &CALLS {
                for flush in Flush::BOTH {
                    tally.compare_rooms(&mut driver, call, flush, (call.lend)(&case));
                }
            }
        }
        tally
    }

    /// A call that says how much room it needs is made again with just that much,
    /// and with a byte less.
    fn compare_rooms(&mut self, driver: &mut Driver, call: &Call, flush: Flush, mut lent: Lent) {
        let answer = self.compare(driver, call, flush, &lent);
        if answer >> 56 == 10 {
            let needed = answer as u32 as usize;
            for room in [needed, needed - 1] {
                lent.writes[0] = telling(room);
                self.compare(driver, call, flush, &lent);
            }
        }
    }

    fn compare(&mut self, driver: &mut Driver, call: &Call, flush: Flush, lent: &Lent) -> u64 {
        let place = format!("case {}, {}, flush {flush:?}", self.cases, call.name);
        let (left, stack) = driver.make(call.name, flush, lent);
        let mut writes = lent.writes.clone();
        let answer = (call.plain)(&lent.reads, &lent.numbers, &mut writes);
        assert_eq!(left.answer, answer, "{place}: the answers differ");
        assert!(left.writes == writes, "{place}: the buffers differ");
        assert!(stack < call.stack, "{place}: {stack} bytes of stack");
        self.saw(call.name, &left, stack);
        answer
    }

    fn saw(&mut self, name: &'static str, left: &Left, stack: u64) {
        let refusal = left.answer >> 56;
        let seen = self.by_call.entry(name).or_default();
        seen.values += u64::from(refusal == 0);
        seen.stack = seen.stack.max(stack);
        *self.refusals.entry(refusal).or_default() += 1;
        self.calls += 1;
    }

    /// Fails unless each refusal was given and each call gave a value.
    pub fn assert_all_reached(&self) {
        let given = |number: &u64| self.refusals.contains_key(number);
        let mut all = (1..=15).chain(17..=20).chain([27, 28]);
        assert!(all.all(|number| given(&number)), "{self}");
        assert!(self.by_call.values().all(|seen| seen.values > 0), "{self}");
    }

    /// Fails unless every call gave a value.
    pub fn assert_no_refusal(&self) {
        assert!(self.refusals.keys().all(|number| *number == 0), "{self}");
    }
}

impl fmt::Display for Tally {
    fn fmt(&self, to: &mut fmt::Formatter) -> fmt::Result {
        let Tally { cases, calls, .. } = self;
        writeln!(to, "{calls} calls on {cases} cases, no difference")?;
        for (refusal, times) in &self.refusals {
            writeln!(to, "refusal {refusal}: {times}")?;
        }
        for (name, Seen { values, stack }) in &self.by_call {
            writeln!(
                to,
                "{name}: {values} values, at most {stack} bytes of stack"
            )?;
        }
        Ok(())
    }
}
