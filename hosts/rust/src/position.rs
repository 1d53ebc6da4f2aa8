//! Which value or pair a refusal is about, found by asking again with fewer of them.

use crate::Refusal;

/// The position, from 1, of the one of `count` values or pairs that is refused; where none is left, of the missing one.
///
/// `ask` is the refused call, with the first so many of them. With those before the refused one alone, none is left for
/// its option; with it, the refusal comes, whatever follows.
pub(crate) fn refused<T>(refusal: Refusal, count: usize, ask: impl Fn(usize) -> Result<T, Refusal>) -> usize {
    if refusal == Refusal::NoValueLeft {
        return count + 1;
    }
    let (mut before, mut position) = (0, count);
    while before + 1 < position {
        let middle = before.midpoint(position);
        match ask(middle) {
            Err(Refusal::NoValueLeft) => before = middle,
            _ => position = middle,
        }
    }
    position
}

#[cfg(test)]
mod tests {
    use super::refused;
    use crate::Refusal;
    use std::cell::Cell;

    #[test]
    fn few_questions_find_the_refused_one() {
        for (count, most) in [(1, 0), (2, 1), (3, 2), (300, 9), (1024, 10), (100_000, 17)] {
            for position in [1, 2, 257, count / 2 + 1, count].into_iter().filter(|&position| position <= count) {
                let questions = Cell::new(0);
                let ask = |first: usize| -> Result<(), Refusal> {
                    questions.set(questions.get() + 1);
                    Err(if first < position { Refusal::NoValueLeft } else { Refusal::OutOfRange })
                };
                assert_eq!(refused(Refusal::OutOfRange, count, ask), position, "{count}");
                assert!(questions.get() <= most, "{count} {position}: {}", questions.get());
                assert_eq!(refused(Refusal::NoValueLeft, count, ask), count + 1);
            }
        }
    }
}
