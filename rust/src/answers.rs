//! What a call on many sets answers.
use crate::refusal::answered;
use crate::{found, Found, Refusal, MOST_SETS};
use std::fmt;
use std::ops::Deref;

/// The words of a set's answer.
const WORDS: usize = 3;

/// The words of the most answers.
pub(crate) const MOST_WORDS: usize = WORDS * MOST_SETS as usize;

/// The answers of a call on many sets, a slice in the order of the sets: what was found beside a set's basis, or why that set was refused.
#[derive(Clone, Copy, PartialEq, Eq)]
pub struct Answers {
    answers: [Result<Found, Refusal>; MOST_SETS as usize],
    sets: usize,
}

/// How many words the answers of so many sets take. More than the most are refused before this length is tested.
pub(crate) fn words_for(sets: u32) -> usize {
    WORDS * sets.min(MOST_SETS) as usize
}

impl Answers {
    /// The answers that the words say.
    pub(crate) fn of(words: &[u32]) -> Answers {
        let mut answers = [Ok(found([0, 0])); MOST_SETS as usize];
        for (answer, said) in answers.iter_mut().zip(words.chunks_exact(WORDS)) {
            *answer = answered(said[0]).map(|()| found([said[1], said[2]]));
        }
        Answers { answers, sets: words.len() / WORDS }
    }
}

impl Deref for Answers {
    type Target = [Result<Found, Refusal>];

    fn deref(&self) -> &Self::Target {
        &self.answers[..self.sets]
    }
}

impl fmt::Debug for Answers {
    fn fmt(&self, f: &mut fmt::Formatter<'_>) -> fmt::Result {
        (**self).fmt(f)
    }
}
