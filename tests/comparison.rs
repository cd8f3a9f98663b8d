// One comparison: answers and lent memory of the proved code and of the second program, held
// against each other and counted. Rests on generate.rs and lent.rs.

use std::collections::BTreeMap;
use std::fmt::{Arguments, Debug};
use std::thread::panicking;

use crate::generate::Random;
use crate::lent::{Leftover, Lent};

const SHOWN_WHOLE: usize = 400;

/// Counts the calls compared: of each call, how often each number from 0 to 13 was the answer.
pub struct Comparison {
    seed: Option<u64>,
    answers: BTreeMap<&'static str, [usize; 14]>,
}

impl Comparison {
    pub fn new() -> Comparison {
        Comparison {
            seed: None,
            answers: BTreeMap::new(),
        }
    }

    /// The body once with each of the seeds that follow the first.
    pub fn generated(
        first_seed: u64,
        times: usize,
        body: impl Fn(&mut Random, &mut Comparison),
    ) -> Comparison {
        let mut comparison = Comparison::new();
        for seed in first_seed..first_seed + times as u64 {
            comparison.seeded(seed, &body);
        }
        comparison
    }

    /// A failure inside names the seed.
    pub fn seeded(&mut self, seed: u64, body: impl FnOnce(&mut Random, &mut Comparison)) {
        self.seed = Some(seed);
        body(&mut Random::new(seed), self);
        self.seed = None;
    }

    /// Demands the same of the proved code and of the second program.
    pub fn demand<T: PartialEq + Debug>(&self, file: &[u8], what: Arguments, proved: T, second: T) {
        demand_same(file, what, ("proved", proved), ("second program", second));
    }

    /// Demands this of the proved code.
    pub fn expect<T: PartialEq + Debug>(
        &self,
        file: &[u8],
        what: Arguments,
        found: T,
        expected: T,
    ) {
        demand_same(file, what, ("found", found), ("expected", expected));
    }

    /// Demands that lent memory is as it was before.
    pub fn demand_kept(&self, file: &[u8], what: &str, kept: &[u8], lent: &[u8]) {
        assert!(
            kept == lent,
            "the lent {what} was changed\n{}",
            describe(file)
        );
    }

    /// Demands the same memory of both programs, changed at the front of the lent slice only.
    pub fn demand_lent<T: Leftover>(
        &self,
        file: &[u8],
        what: &str,
        lent: &Lent<T>,
        may_change: usize,
    ) {
        if let Some(difference) = lent.difference(may_change) {
            panic!("the {what}: {difference}\n{}", describe(file));
        }
    }

    /// Demands what the paper says of a work slice after an answer of this number.
    pub fn demand_work(&self, file: &[u8], work: &Lent<u16>, number: usize) {
        let cleared = match number {
            0 | 12 => 16 * states_of(file),
            _ => 0,
        };
        self.demand_lent(file, "work slice", work, cleared);
        assert!(
            work.left()[..cleared].iter().all(|&left| left == 0),
            "the work slice isn't cleared\n{}",
            describe(file)
        );
    }

    /// Counts a call compared, by the number of its answer.
    pub fn count(&mut self, call: &'static str, number: usize) {
        self.answers.entry(call).or_default()[number] += 1;
    }

    /// Demands that at least so many answers had each of these numbers.
    pub fn met(&self, numbers: impl IntoIterator<Item = usize>, least: usize) {
        for number in numbers {
            let met: usize = self.answers.values().map(|answers| answers[number]).sum();
            assert!(met >= least, "number {number} was met {met} times only");
        }
    }

    /// Demands of one call that at least so many of its answers had each of these numbers.
    pub fn met_by(&self, call: &str, numbers: impl IntoIterator<Item = usize>, least: usize) {
        for number in numbers {
            let met = self.answers[call][number];
            assert!(met >= least, "{call} met number {number} {met} times only");
        }
    }

    /// How often one call was compared.
    pub fn calls(&self, call: &str) -> usize {
        self.answers[call].iter().sum()
    }

    /// Demands that at least so many calls were compared.
    pub fn finish(self, least: usize) {
        let calls: usize = self.answers.keys().map(|call| self.calls(call)).sum();
        println!("{calls} calls compared, by number {:?}", self.answers);
        assert!(calls >= least, "{calls} calls compared, {least} promised");
    }
}

impl Drop for Comparison {
    /// Names the seed at which a failure was raised, here or in the programs compared.
    fn drop(&mut self) {
        if let (true, Some(seed)) = (panicking(), self.seed) {
            eprintln!("seed {seed}");
        }
    }
}

fn demand_same<T: PartialEq + Debug>(
    file: &[u8],
    what: Arguments,
    (one, first): (&str, T),
    (other, second): (&str, T),
) {
    assert!(
        first == second,
        "{what} differs\n{one}: {first:?}\n{other}: {second:?}\n{}",
        describe(file)
    );
}

fn describe(file: &[u8]) -> String {
    format!("file of {} bytes: {}", file.len(), hex(file))
}

/// The number of states of an accepted file.
pub fn states_of(file: &[u8]) -> usize {
    usize::from(u16::from_be_bytes([file[3], file[4]]))
}

/// Longer bytes are left out in the middle.
pub fn hex(bytes: &[u8]) -> String {
    let all = |bytes: &[u8]| {
        let pairs: Vec<String> = bytes.iter().map(|byte| format!("{byte:02X}")).collect();
        pairs.join(" ")
    };
    if bytes.len() <= SHOWN_WHOLE {
        return all(bytes);
    }
    let half = SHOWN_WHOLE / 2;
    let left_out = bytes.len() - SHOWN_WHOLE;
    let (front, back) = (&bytes[..half], &bytes[bytes.len() - half..]);
    format!("{} [{left_out} bytes] {}", all(front), all(back))
}
