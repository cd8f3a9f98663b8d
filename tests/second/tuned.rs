// The same runs as splitting.rs, for timing: class sizes are kept over a run, one pass over the
// sign's next states counts, and classes are renamed where one is split. Rests on splitting.rs.

use super::automaton::Automaton;
use super::file::Refusal;
use super::lent::{clear, work_length};
use super::splitting::{judge_lent, Run, MOST_TAKES};

/// All of n numbers. Between takes `leading` and `named` are 0.
struct Lists<'a> {
    classes: &'a mut [u16],
    pending: &'a mut [u16],
    /// Of each class, at its name.
    sizes: &'a mut [u16],
    /// The states of each class that lead into the splitter.
    leading: &'a mut [u16],
    /// The classes with such states come first.
    touched: &'a mut [u16],
    /// 1 where the state leads into the splitter, found only where a class is split.
    leads: &'a mut [u16],
    /// The name of the part that leaves the class; 0 where none does.
    named: &'a mut [u16],
    /// No lesser state has signs waiting.
    least_waiting: usize,
}

pub fn run(
    file: &[u8],
    budget: usize,
    classes: &mut [u16],
    pending: &mut [u16],
    work: &mut [u16],
) -> Result<Run, Refusal> {
    let automaton = judge_lent(file, classes, pending, work)?;
    let states = automaton.states;
    let mut parts = work[..work_length(states)].chunks_exact_mut(states);
    let mut part = || parts.next().expect("sixteen parts");
    let mut lists = Lists {
        classes: &mut classes[..states],
        pending: &mut pending[..states],
        sizes: part(),
        leading: part(),
        touched: part(),
        leads: part(),
        named: part(),
        least_waiting: 0,
    };
    let run = lists.run(&automaton, budget.min(MOST_TAKES));
    clear(work, states);
    Ok(run)
}

impl Lists<'_> {
    fn run(&mut self, automaton: &Automaton, budget: usize) -> Run {
        for &class in self.classes.iter() {
            self.sizes[usize::from(class)] += 1;
        }
        let (mut takes, mut entries) = (0, 0);
        while takes < budget {
            let mut left = self.pending[self.least_waiting..].iter();
            let Some(skipped) = left.position(|&waiting| waiting != 0) else {
                break;
            };
            self.least_waiting += skipped;
            entries += self.take(automaton, self.least_waiting);
            takes += 1;
        }
        Run { takes, entries }
    }

    /// Gives the entries looked at.
    fn take(&mut self, automaton: &Automaton, taken: usize) -> usize {
        self.pending[taken] -= 1;
        let sign = usize::from(self.pending[taken]);
        let (mut entries, mut touched) = (0, 0);
        for (next, &class) in automaton.column(sign).zip(self.classes.iter()) {
            if usize::from(self.classes[next]) == taken {
                entries += 1;
                let leading = &mut self.leading[usize::from(class)];
                if *leading == 0 {
                    self.touched[touched] = class;
                    touched += 1;
                }
                *leading += 1;
            }
        }
        if (0..touched).any(|index| self.is_split(usize::from(self.touched[index]))) {
            for (leads, next) in self.leads.iter_mut().zip(automaton.column(sign)) {
                *leads = u16::from(usize::from(self.classes[next]) == taken);
            }
            self.rename(touched, automaton.signs as u16);
        }
        for &class in &self.touched[..touched] {
            self.leading[usize::from(class)] = 0;
        }
        entries
    }

    fn is_split(&self, class: usize) -> bool {
        self.leading[class] != 0 && self.leading[class] != self.sizes[class]
    }

    fn rename(&mut self, touched: usize, signs: u16) {
        for state in 0..self.classes.len() {
            let class = usize::from(self.classes[state]);
            if self.is_split(class) && self.leads[state] != self.leads[class] {
                if self.named[class] == 0 {
                    self.named[class] = state as u16;
                }
                self.classes[state] = self.named[class];
            }
        }
        for index in 0..touched {
            let class = usize::from(self.touched[index]);
            if self.named[class] != 0 {
                self.divide(class, signs);
                self.least_waiting = self.least_waiting.min(class);
            }
        }
    }

    /// Divides the class's size and what waits of it among its two parts.
    fn divide(&mut self, p: usize, signs: u16) {
        let r = usize::from(std::mem::take(&mut self.named[p]));
        self.sizes[r] = match self.leads[p] {
            0 => self.leading[p],
            _ => self.sizes[p] - self.leading[p],
        };
        self.sizes[p] -= self.sizes[r];
        if self.sizes[p] <= self.sizes[r] {
            self.pending[r] = self.pending[p];
            self.pending[p] = signs;
        } else {
            self.pending[r] = signs;
        }
    }
}
