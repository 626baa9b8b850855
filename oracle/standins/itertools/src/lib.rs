//! The two things of itertools that the original uses; Debian's itertools is older than one of them.

pub fn chain<I, J>(first: I, second: J) -> std::iter::Chain<I::IntoIter, J::IntoIter>
where
    I: IntoIterator,
    J: IntoIterator<Item = I::Item>,
{
    first.into_iter().chain(second)
}

pub trait Itertools: Iterator + Sized {
    /// The value that all items have; else none, or two that differ.
    fn all_equal_value(&mut self) -> Result<Self::Item, Option<(Self::Item, Self::Item)>>
    where
        Self::Item: PartialEq,
    {
        let first = self.next().ok_or(None)?;
        match self.find(|item| *item != first) {
            Some(other) => Err(Some((first, other))),
            None => Ok(first),
        }
    }
}

impl<I: Iterator> Itertools for I {}
