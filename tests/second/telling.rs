// The word that tells two states apart, by a breadth-first search over pairs of states: the signs
// in rising order, so that the first of the shortest words is found. Rests on automaton.rs.

use super::automaton::Automaton;
use super::file::{refuse, Refusal};
use super::lent::{clear, demand_room, demand_work};

/// The length of the word, which stands at the front of the lent bytes; none where alike.
pub fn tell(
    file: &[u8],
    first: usize,
    second: usize,
    work: &mut [u16],
    word: &mut [u8],
) -> Result<Option<usize>, Refusal> {
    let automaton = Automaton::read(file)?;
    if let Some(place) = [first, second]
        .iter()
        .position(|&state| state >= automaton.states)
    {
        return refuse(10, place);
    }
    demand_work(work, automaton.states)?;
    clear(work, automaton.states);
    let Some(found) = telling_word(&automaton, first, second) else {
        return Ok(None);
    };
    demand_room(word.len(), found.len())?;
    word[..found.len()].copy_from_slice(&found);
    Ok(Some(found.len()))
}

/// A pair of states met, and the index of the pair and the sign it was met from.
struct Met {
    pair: [usize; 2],
    from: Option<(usize, u8)>,
}

pub fn telling_word(automaton: &Automaton, first: usize, second: usize) -> Option<Vec<u8>> {
    let number = |[first, second]: [usize; 2]| first * automaton.states + second;
    let mut seen = vec![false; automaton.states * automaton.states];
    let mut met = vec![Met {
        pair: [first, second],
        from: None,
    }];
    seen[number([first, second])] = true;
    let mut index = 0;
    while index < met.len() {
        let pair = met[index].pair;
        if automaton.mark(pair[0]) != automaton.mark(pair[1]) {
            return Some(word_to(&met, index));
        }
        for sign in 0..automaton.signs {
            let pair = pair.map(|state| automaton.next(state, sign));
            if !std::mem::replace(&mut seen[number(pair)], true) {
                let from = Some((index, sign as u8));
                met.push(Met { pair, from });
            }
        }
        index += 1;
    }
    None
}

fn word_to(met: &[Met], index: usize) -> Vec<u8> {
    let mut word = Vec::new();
    let mut from = met[index].from;
    while let Some((index, sign)) = from {
        word.push(sign);
        from = met[index].from;
    }
    word.reverse();
    word
}
