//! Kinds of calls: what is met by a call that comes to a state, in words.

/// A kind in words, and whether a call is of it. The words begin with the code that it is answered with, unless that is 0.
pub(crate) type Kind<Test> = (&'static str, Test);

pub(crate) fn words<Test>(kinds: &'static [Kind<Test>]) -> impl Iterator<Item = &'static str> {
    kinds.iter().map(|(words, _)| *words)
}

pub(crate) fn those<Test>(kinds: &[Kind<Test>], are_met: impl Fn(&Test) -> bool) -> Vec<&'static str> {
    kinds.iter().filter(|(_, test)| are_met(test)).map(|(words, _)| *words).collect()
}

/// The code that a call is answered with which meets something of these words.
#[cfg(test)]
pub(crate) fn code_of(words: &str) -> u32 {
    words.split(' ').next().and_then(|word| word.parse().ok()).unwrap_or(crate::answer::DONE)
}
