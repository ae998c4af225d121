//! Where the parts of a joined list begin.

use std::ops::Range;

/// The places at which each part of a joined list begins, and the list's end.
#[derive(Clone, Debug, PartialEq, Eq, Hash)]
pub(crate) struct Starts(Vec<usize>);

impl Starts {
    /// From the length of each part.
    pub(crate) fn of(lengths: impl ExactSizeIterator<Item = usize>) -> Starts {
        let mut starts = Vec::with_capacity(lengths.len() + 1);
        starts.push(0);
        let mut end = 0;
        starts.extend(lengths.map(|length| {
            end += length;
            end
        }));
        Starts(starts)
    }

    /// Where the part of this number lies, counted from 0.
    pub(crate) fn range(&self, number: usize) -> Option<Range<usize>> {
        let end = *self.0.get(number.checked_add(1)?)?;
        Some(self.0[number]..end)
    }
}

/// The list of no parts.
impl Default for Starts {
    fn default() -> Starts {
        Starts::of(std::iter::empty())
    }
}

#[cfg(test)]
mod tests {
    use super::*;

    #[test]
    fn parts_follow_each_other() {
        let starts = Starts::of([3, 0, 2].into_iter());
        let ranges: Vec<_> = (0..4).map(|number| starts.range(number)).collect();
        assert_eq!(ranges, [Some(0..3), Some(3..3), Some(3..5), None]);
        assert_eq!(Starts::default().range(0), None);
        assert_eq!(starts.range(usize::MAX), None);
    }
}
