//! Slices lent to a call, in words or bytes, with a margin on each side that no call may touch.

const MARGIN: usize = 4;

/// What a margin holds.
pub trait Untouched: Copy + PartialEq {
    const UNTOUCHED: Self;
}

impl Untouched for u32 {
    const UNTOUCHED: u32 = 0xa5a5_a5a5;
}

impl Untouched for u8 {
    const UNTOUCHED: u8 = 0xa5;
}

/// A slice of words or bytes between its margins.
#[derive(Clone, PartialEq, Eq)]
pub struct Lent<T>(Vec<T>);

impl<T: Untouched> Lent<T> {
    pub fn new(words: &[T]) -> Lent<T> {
        let margin = [T::UNTOUCHED; MARGIN];
        Lent([&margin, words, &margin].concat())
    }

    pub fn words(&self) -> &[T] {
        &self.0[MARGIN..self.0.len() - MARGIN]
    }

    pub fn words_mut(&mut self) -> &mut [T] {
        let end = self.0.len() - MARGIN;
        &mut self.0[MARGIN..end]
    }

    /// Takes over the words of another one of the same length.
    pub fn take(&mut self, other: &Lent<T>) {
        self.0.copy_from_slice(&other.0);
    }

    /// The first place at which two of the same length differ; in the margin before the slice it is below 0.
    pub fn first_other(&self, other: &Lent<T>) -> Option<isize> {
        // Whole slices are compared faster than word by word.
        if self.0 == other.0 {
            return None;
        }
        let mut words = self.0.iter().zip(&other.0);
        let place = words.position(|(one, two)| one != two)?;
        Some(place as isize - MARGIN as isize)
    }
}
