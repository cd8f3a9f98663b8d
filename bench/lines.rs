// A line of a table: a call of the library and the call that stands beside it, on one case.
// Rests on tests/second for its refusals.

use crate::parts::second::file::Refusal;

/// The number of the refusal and two numbers of the answer; both calls of a line give the same.
pub type Answer = [usize; 3];

pub type Call<'a> = Box<dyn FnMut() -> Answer + 'a>;

pub struct Line<'a> {
    pub case: &'a str,
    pub call: String,
    /// The names under which it is measured.
    pub names: &'static [&'static str],
    /// Not so where only the instructions are wanted.
    pub timed: bool,
    pub calls: [Call<'a>; 2],
}

impl<'a> Line<'a> {
    /// A timed line that is measured under the name of its call.
    pub fn new(
        case: &'a str,
        names: &'static [&'static str],
        library: impl FnMut() -> Answer + 'a,
        beside: impl FnMut() -> Answer + 'a,
    ) -> Line<'a> {
        Line {
            case,
            call: names[0].to_string(),
            names,
            timed: true,
            calls: [Box::new(library), Box::new(beside)],
        }
    }

    pub fn called(self, call: String) -> Line<'a> {
        Line { call, ..self }
    }

    pub fn untimed(self) -> Line<'a> {
        Line {
            timed: false,
            ..self
        }
    }

    /// Makes each call once, by the given way of making it.
    pub fn agree(&mut self, make: impl Fn(&mut Call) -> Answer) {
        let [library, beside] = self.calls.each_mut().map(make);
        assert_eq!(library, beside, "{} {}", self.case, self.call);
    }
}

/// What the second program answers.
pub fn answer<T>(found: Result<T, Refusal>, numbers: impl FnOnce(T) -> [usize; 2]) -> Answer {
    match found.map(numbers) {
        Ok([first, second]) => [0, first, second],
        Err(refusal) => [refusal.number, 0, 0],
    }
}
