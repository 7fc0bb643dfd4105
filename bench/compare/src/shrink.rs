//! Making a file that shows a difference as small as it will go.

use reference::RunFile;

/// Says whether a smaller file still shows a difference.
pub type Differs<'a> = dyn FnMut(&RunFile) -> bool + 'a;

/// A small file that still differs: steps dropped, memory and card cut and
/// zeroed, words zeroed, as long as any of it works.
pub fn shrink(file: &RunFile, differs: &mut Differs) -> RunFile {
    let mut best = file.clone();
    loop {
        let before = best.clone();
        fewer_steps(&mut best, differs);
        less_memory(&mut best, differs);
        less_card(&mut best, differs);
        plainer_steps(&mut best, differs);
        if best == before {
            return best;
        }
    }
}

fn fewer_steps(best: &mut RunFile, differs: &mut Differs) {
    let whole = best.clone();
    best.steps = fewer(&whole.steps, &mut |steps| {
        differs(&RunFile {
            steps: steps.to_vec(),
            ..whole.clone()
        })
    });
}

fn less_memory(best: &mut RunFile, differs: &mut Differs) {
    let whole = best.clone();
    best.memory = plainer(&whole.memory, &mut |memory| {
        differs(&RunFile {
            memory: memory.to_vec(),
            ..whole.clone()
        })
    });
}

fn less_card(best: &mut RunFile, differs: &mut Differs) {
    let whole = best.clone();
    best.card = plainer(&whole.card, &mut |card| {
        differs(&RunFile {
            card: card.to_vec(),
            ..whole.clone()
        })
    });
}

fn plainer_steps(best: &mut RunFile, differs: &mut Differs) {
    for step in 0..best.steps.len() {
        for word in 0..4 {
            let value = best.steps[step].words[word];
            // Single bits go one by one where the whole word does not.
            let bits = (0..32).map(|bit| value & !(1 << bit));
            for smaller in std::iter::once(0).chain(bits) {
                let mut tried = best.clone();
                tried.steps[step].words[word] &= smaller;
                if tried != *best && differs(&tried) {
                    *best = tried;
                }
            }
        }
    }
}

// A list with as many parts dropped as can be, the last first: what comes
// after the difference is never needed.
fn fewer<T: Clone>(list: &[T], still: &mut dyn FnMut(&[T]) -> bool) -> Vec<T> {
    let mut best = list.to_vec();
    let mut part = best.len();
    while part > 0 {
        let mut end = best.len();
        while end > 0 {
            let start = end.saturating_sub(part);
            let tried = [&best[..start], &best[end..]].concat();
            if still(&tried) {
                best = tried;
            }
            end = start;
        }
        part /= 2;
    }
    best
}

// Bytes are cut only from the end: what is left keeps its address.
fn plainer(bytes: &[u8], still: &mut dyn FnMut(&[u8]) -> bool) -> Vec<u8> {
    let mut best = bytes.to_vec();
    let mut part = best.len();
    while part > 0 {
        while part <= best.len() && still(&best[..best.len() - part]) {
            best.truncate(best.len() - part);
            if best.is_empty() {
                break;
            }
        }
        part /= 2;
    }
    zeroed(best, still)
}

fn zeroed(mut best: Vec<u8>, still: &mut dyn FnMut(&[u8]) -> bool) -> Vec<u8> {
    let mut part = best.len();
    while part > 0 {
        for start in (0..best.len()).step_by(part) {
            let mut tried = best.clone();
            let end = tried.len().min(start + part);
            tried[start..end].fill(0);
            if tried != best && still(&tried) {
                best = tried;
            }
        }
        part /= 2;
    }
    best
}

#[cfg(test)]
mod tests {
    use super::*;
    use reference::Step;
    use runtext::kinds;

    fn large() -> RunFile {
        let steps: Vec<Step> = (0..100)
            .map(|place| kinds::write(place, 4, 0xFFFF_FFFF))
            .collect();
        RunFile {
            memory: vec![7; 1000],
            steps,
            card: vec![9; 100],
        }
    }

    #[test]
    fn all_goes_where_nothing_is_needed() {
        let small = shrink(&large(), &mut |_| true);
        assert_eq!((small.memory, small.steps, small.card), Default::default());
    }

    #[test]
    fn nothing_goes_where_all_is_needed() {
        let file = large();
        assert_eq!(shrink(&file, &mut |tried| *tried == large()), file);
    }

    #[test]
    fn only_what_is_needed_stays() {
        // Two steps in order, one bit of a value, one byte of memory, two of the card.
        let small = shrink(&large(), &mut |tried| {
            let places: Vec<u16> = tried.steps.iter().map(|step| step.offset).collect();
            let bit = tried.steps.iter().any(|step| step.words[0] & 0x10 != 0);
            places.contains(&17)
                && places.contains(&70)
                && bit
                && tried.memory.get(40) == Some(&7)
                && tried.card.len() >= 2
        });
        assert_eq!(small.steps.len(), 2);
        let words: u32 = small.steps.iter().map(|step| step.words[0]).sum();
        assert_eq!(words, 0x10);
        assert_eq!(small.memory.len(), 41);
        assert_eq!(small.memory.iter().filter(|byte| **byte != 0).count(), 1);
        assert_eq!(small.card, [0, 0]);
    }

    #[test]
    fn lists_of_anything_get_fewer() {
        let list: Vec<u32> = (0..50).collect();
        let mut needed = |tried: &[u32]| tried.contains(&3) && tried.contains(&44);
        assert_eq!(fewer(&list, &mut needed), [3, 44]);
    }

    #[test]
    fn tries_stay_few() {
        let mut tries = 0;
        shrink(&large(), &mut |tried| {
            tries += 1;
            tried.steps.iter().any(|step| step.offset == 50)
        });
        assert!(tries < 500, "{tries}");
    }
}
