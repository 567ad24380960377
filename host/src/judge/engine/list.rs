//! A list of pending operations in the order in which they came, in lent
//! bytes: two bytes an entry. Searched from the front; what stands behind a
//! removed entry moves down.

pub struct List<'a> {
    entries: &'a mut [[u8; 2]],
    count: usize,
}

impl<'a> List<'a> {
    pub fn empty(entries: &'a mut [[u8; 2]]) -> List<'a> {
        List { entries, count: 0 }
    }

    pub fn len(&self) -> usize {
        self.count
    }

    pub fn push(&mut self, operation: usize) {
        self.entries[self.count] = (operation as u16).to_le_bytes();
        self.count += 1;
    }

    fn number(&self, place: usize) -> usize {
        usize::from(u16::from_le_bytes(self.entries[place]))
    }

    /// Where the first operation stands of which `wanted` is true.
    #[inline]
    fn first(&self, wanted: impl Fn(usize) -> bool) -> Option<usize> {
        let number = |entry: &[u8; 2]| usize::from(u16::from_le_bytes(*entry));
        let mut entries = self.entries[..self.count].iter();
        entries.position(|entry| wanted(number(entry)))
    }

    /// The first operation of which `wanted` is true.
    #[inline]
    pub fn find(&self, wanted: impl Fn(usize) -> bool) -> Option<usize> {
        self.first(wanted).map(|place| self.number(place))
    }

    /// Takes it out.
    #[inline]
    pub fn take(&mut self, wanted: impl Fn(usize) -> bool) -> Option<usize> {
        let place = self.first(wanted)?;
        let taken = self.number(place);
        self.entries.copy_within(place + 1..self.count, place);
        self.count -= 1;
        Some(taken)
    }
}
