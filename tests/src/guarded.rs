//! Buffers that are lent with guard words on both sides.

/// Guard words on each side.
const MARGIN: usize = 4;

/// A buffer between guard words.
pub struct Guarded<T> {
    guard: T,
    elements: Vec<T>,
}

impl<T: Copy + PartialEq> Guarded<T> {
    pub fn new(content: &[T], guard: T) -> Guarded<T> {
        let margin = [guard; MARGIN];
        Guarded { guard, elements: [&margin, content, &margin].concat() }
    }

    /// Lends the buffer.
    pub fn lent(&mut self) -> &mut [T] {
        let end = self.elements.len() - MARGIN;
        &mut self.elements[MARGIN..end]
    }

    /// Gives the buffer back as it was left; nothing may have been written around it.
    pub fn left(mut self) -> Vec<T> {
        let guards = self.elements.len() - MARGIN;
        let behind = self.elements.split_off(guards);
        let content = self.elements.split_off(MARGIN);
        let untouched = |part: &[T]| part.iter().all(|&element| element == self.guard);
        assert!(untouched(&self.elements) && untouched(&behind), "wrote past a lent buffer");
        content
    }
}

#[cfg(test)]
mod tests {
    use super::{Guarded, MARGIN};

    #[test]
    fn buffer_is_left_as_it_was_written() {
        let mut buffer = Guarded::new(&[1, 2], 9);
        buffer.lent()[1] = 3;
        assert_eq!(buffer.left(), [1, 3]);
    }

    #[test]
    fn writing_around_it_is_found() {
        for at in [0, MARGIN - 1, MARGIN + 2, 2 * MARGIN + 1] {
            let mut buffer = Guarded::new(&[1, 2], 9);
            buffer.elements[at] = 0;
            assert!(std::panic::catch_unwind(|| buffer.left()).is_err(), "{at}");
        }
    }
}
