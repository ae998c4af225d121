//! Buffers that are lent in part: only the middle is lent, and on both sides
//! of it lie guards, elements of a known pattern that nobody may change.

/// The elements on each side. The number is odd, so that lent bytes mostly do
/// not begin at an address that a word could have.
const GUARD: usize = 67;

/// What a table is made of.
pub trait Element: Copy + PartialEq {
    /// The guard at this index of the buffer. Neighbours differ, so that a
    /// guard copied over another one is seen.
    fn guard(index: usize) -> Self;
}

impl Element for u32 {
    fn guard(index: usize) -> u32 {
        (index as u32 + 1).wrapping_mul(0x9e37_79b1)
    }
}

impl Element for u8 {
    fn guard(index: usize) -> u8 {
        (index as u8).wrapping_mul(167) ^ 0xa5
    }
}

/// A buffer whose middle is lent.
#[derive(Clone, Debug)]
pub struct Guarded<T> {
    buffer: Vec<T>,
}

impl<T: Element> Guarded<T> {
    /// A buffer that holds these elements between its guards.
    pub fn new(content: &[T]) -> Guarded<T> {
        let mut buffer = Vec::with_capacity(content.len() + 2 * GUARD);
        buffer.extend((0..GUARD).map(T::guard));
        buffer.extend_from_slice(content);
        let end = buffer.len();
        buffer.extend((end..end + GUARD).map(T::guard));
        Guarded { buffer }
    }

    /// How many elements are lent.
    pub fn length(&self) -> usize {
        self.buffer.len() - 2 * GUARD
    }

    /// What is lent.
    pub fn content(&self) -> &[T] {
        &self.buffer[GUARD..GUARD + self.length()]
    }

    /// The same, to be changed.
    pub fn content_mut(&mut self) -> &mut [T] {
        let end = GUARD + self.length();
        &mut self.buffer[GUARD..end]
    }

    /// The guards behind what is lent, to be changed by a library that is
    /// wrong on purpose.
    pub fn behind_mut(&mut self) -> &mut [T] {
        let end = GUARD + self.length();
        &mut self.buffer[end..]
    }

    /// The guards in front of what is lent, for the same use.
    pub fn front_mut(&mut self) -> &mut [T] {
        &mut self.buffer[..GUARD]
    }

    /// Which guard was changed, in words, if one was.
    pub fn changed_guard(&self) -> Option<String> {
        let end = GUARD + self.length();
        let same = |index: &usize| self.buffer[*index] == T::guard(*index);
        if let Some(index) = (0..GUARD).rev().find(|index| !same(index)) {
            return Some(format!("{} before its start", GUARD - index));
        }
        let index = (end..self.buffer.len()).find(|index| !same(index))?;
        Some(format!("{} past its end", index - end + 1))
    }
}

#[cfg(test)]
mod tests {
    use super::*;

    #[test]
    fn what_is_lent_is_between_the_guards() {
        let mut lent = Guarded::new(&[1u32, 2, 3]);
        assert_eq!(lent.length(), 3);
        assert_eq!(lent.content(), [1, 2, 3]);
        lent.content_mut().fill(7);
        assert_eq!(lent.content(), [7, 7, 7]);
        assert_eq!(lent.changed_guard(), None);
    }

    #[test]
    fn every_changed_guard_is_seen() {
        for index in 0..GUARD {
            let mut lent = Guarded::new(&[9u8; 5]);
            lent.behind_mut()[index] ^= 1;
            let words = format!("{} past its end", index + 1);
            assert_eq!(lent.changed_guard(), Some(words));

            let mut lent = Guarded::new(&[0u32; 0]);
            lent.front_mut()[index] ^= 0x8000_0000;
            let words = format!("{} before its start", GUARD - index);
            assert_eq!(lent.changed_guard(), Some(words));
        }
    }
}
