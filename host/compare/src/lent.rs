//! Memory that is lent to a call: what it holds before, and whether it still holds that where it should.

/// How much behind the lent part is looked at too.
const BEHIND: usize = 16;

/// Between calls all of it is as it was.
pub struct Lent<T> {
    filling: fn(usize) -> T,
    before: Vec<T>,
    now: Vec<T>,
}

impl<T: Copy + PartialEq> Lent<T> {
    /// Holds at each place what the function says.
    pub fn new(filling: fn(usize) -> T) -> Self {
        Lent { filling, before: Vec::new(), now: Vec::new() }
    }

    /// The first so many, to be lent.
    pub fn lend(&mut self, count: usize) -> &mut [T] {
        self.before.extend((self.before.len()..count + BEHIND).map(self.filling));
        self.now.extend(&self.before[self.now.len()..]);
        &mut self.now[..count]
    }

    /// What the first so many hold now.
    pub fn front(&self, count: usize) -> &[T] {
        &self.now[..count]
    }

    /// The first place from this one on that is not as it was, so many being lent.
    pub fn changed(&self, from: usize, lent: usize) -> Option<usize> {
        let (before, now) = (&self.before[from..lent + BEHIND], &self.now[from..lent + BEHIND]);
        first_difference(before, now).map(|place| from + place)
    }

    /// Makes the first so many as they were.
    pub fn restore(&mut self, count: usize) {
        self.now[..count].copy_from_slice(&self.before[..count]);
    }

    pub fn restore_all(&mut self) {
        self.restore(self.before.len());
    }
}

/// Where two differ first, be it that one ends there.
pub fn first_difference<T: PartialEq>(one: &[T], other: &[T]) -> Option<usize> {
    // Comparing all is much quicker than one after the other, and mostly they are the same.
    if one == other {
        return None;
    }
    let place = one.iter().zip(other).position(|(one, other)| one != other);
    place.or(Some(one.len().min(other.len())))
}

#[cfg(test)]
mod tests {
    use super::*;

    #[test]
    fn first_differences() {
        assert_eq!(first_difference::<u8>(&[], &[]), None);
        assert_eq!(first_difference(&[1, 2, 3], &[1, 2, 3]), None);
        assert_eq!(first_difference(&[1, 2, 3], &[1, 4, 4]), Some(1));
        assert_eq!(first_difference(&[1, 2, 3], &[1, 2]), Some(2));
        assert_eq!(first_difference(&[], &[1]), Some(0));
    }

    #[test]
    fn changes_are_seen() {
        let mut lent = Lent::new(|i| i as u8 + 1);
        lent.lend(10)[..4].fill(0);
        assert_eq!(lent.front(4), [0; 4]);
        assert_eq!([0, 3, 4].map(|from| lent.changed(from, 10)), [Some(0), Some(3), None]);
        lent.restore(4);
        assert_eq!(lent.changed(0, 10), None);
        // Behind what is lent.
        lent.now[10] = 0;
        assert_eq!(lent.changed(4, 10), Some(10));
        lent.restore_all();
        assert_eq!(lent.changed(0, 10), None);
        // More is lent later.
        assert_eq!(lent.lend(100)[99], 100);
        assert_eq!(lent.changed(0, 100), None);
    }
}
