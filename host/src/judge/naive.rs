//! *Check* and *premise* once more, as near to the sentences of documents 01
//! and 02 as code can be: bit-wise CRC, every rule asked anew of the whole
//! sheet. It shares no code with the ordinary judge, so that neither is a copy
//! of the other.

use jamturret::lent::Answer;

pub fn check(sheet: &[u8]) -> Answer {
    let view = View(sheet);
    if sheet.len() < 16 {
        return Answer::refusal(1, 0);
    }
    if !view.ranges() {
        return Answer::refusal(2, 0);
    }
    if !view.offsets_and_length() {
        return Answer::refusal(3, 0);
    }
    if crc(&[&sheet[0..14], &sheet[16..]].concat()) != view.word(14) {
        return Answer::refusal(4, 0);
    }
    let p = view.word(0);
    if let Some(rank) = (0..p).find(|&rank| !view.entry_right(rank)) {
        return Answer::refusal(5, rank);
    }
    if view.counts_before(p) != view.word(4) {
        return Answer::refusal(5, p);
    }
    let n = view.word(4);
    if let Some(index) = (0..n).find(|&index| !view.fields_right(index)) {
        return Answer::refusal(6, index);
    }
    if let Some(index) = (0..n).find(|&i| !view.slot_right(i) || !view.area_right(i)) {
        return Answer::refusal(7, index);
    }
    match (0..n).find(|&index| view.forgotten(index)) {
        Some(index) => Answer::refusal(7, index),
        None => Answer::refusal(0, 0),
    }
}

/// "No receive from any source and no ready send. On each board the charges of
/// all its buffered sends, were none matched, add up to at most its attached
/// size." And no probe from any source and no query (document 02, K9). For
/// edition 2 "each board's room to be 0 or to cover all its standard sends" (K6).
pub fn premise(sheet: &[u8]) -> Answer {
    let checked = check(sheet);
    if checked.number != 0 {
        return checked;
    }
    let view = View(sheet);
    let (p, n) = (view.word(0), view.word(4));
    let asks = |index| view.kind(index) == 5 || view.kind(index) == 7;
    if let Some(index) = (0..n).find(|&i| asks(i) && view.field(i, 2) == 65535) {
        return Answer::refusal(20, index);
    }
    if let Some(index) = (0..n).find(|&index| view.kind(index) == 4) {
        return Answer::refusal(21, index);
    }
    if let Some(rank) = (0..p).find(|&rank| view.charges(rank) > view.board(rank, 4)) {
        return Answer::refusal(22, rank);
    }
    if let Some(index) = (0..n).find(|&index| view.kind(index) == 8) {
        return Answer::refusal(23, index);
    }
    let covers = |rank| view.room(rank) == 0 || view.room(rank) >= view.standard_lengths(rank);
    match (0..p).find(|&rank| !covers(rank)) {
        Some(rank) => Answer::refusal(24, rank),
        None => Answer::refusal(0, 0),
    }
}

/// Polynomial 1021 hex, start FFFF hex, high bit first, no final change.
pub fn crc(bytes: &[u8]) -> u64 {
    let mut register: u64 = 0xFFFF;
    for byte in bytes {
        for bit in (0..8).rev() {
            let incoming = u64::from(*byte >> bit & 1);
            let leaving = register >> 15;
            register = (register << 1) & 0xFFFF;
            if incoming != leaving {
                register ^= 0x1021;
            }
        }
    }
    register
}

struct View<'a>(&'a [u8]);

impl View<'_> {
    fn byte(&self, at: u64) -> u64 {
        u64::from(self.0[at as usize])
    }

    fn word(&self, at: u64) -> u64 {
        self.byte(at) + 256 * self.byte(at + 1)
    }

    /// P 1 to 16, C 1 to 8, N 0 to 2,048, L 0 to 16,384.
    fn ranges(&self) -> bool {
        let (p, c, n, l) = (self.word(0), self.word(2), self.word(4), self.word(12));
        1 <= p && p <= 16 && 1 <= c && c <= 8 && n <= 2048 && l <= 16384
    }

    /// "The operation table's offset is 16+10P, which tells the editions apart"
    /// (document 02, K6).
    fn second_edition(&self) -> bool {
        self.word(8) == 16 + 10 * self.word(0)
    }

    fn entry_bytes(&self) -> u64 {
        match self.second_edition() {
            true => 10,
            false => 8,
        }
    }

    fn offsets_and_length(&self) -> bool {
        let (n, l) = (self.word(4), self.word(12));
        let operations = 16 + self.entry_bytes() * self.word(0);
        self.word(6) == 16
            && self.word(8) == operations
            && self.word(10) == operations + 16 * n
            && self.0.len() as u64 == operations + 16 * n + l
    }

    fn board(&self, rank: u64, field: u64) -> u64 {
        self.word(16 + self.entry_bytes() * rank + field)
    }

    /// "The last number being the standard room"; without one nothing is
    /// buffered, as with room 0.
    fn room(&self, rank: u64) -> u64 {
        match self.second_edition() {
            true => self.board(rank, 8),
            false => 0,
        }
    }

    fn counts_before(&self, rank: u64) -> u64 {
        (0..rank).map(|earlier| self.board(earlier, 2)).sum()
    }

    fn inboxes_through(&self, rank: u64) -> u64 {
        (0..=rank).map(|earlier| self.board(earlier, 6)).sum()
    }

    fn entry_right(&self, rank: u64) -> bool {
        self.board(rank, 0) == self.counts_before(rank)
            && self.board(rank, 4) <= 16384
            && self.inboxes_through(rank) <= 16384
            && self.room(rank) <= 16384
    }

    fn at(&self, index: u64) -> u64 {
        16 + self.entry_bytes() * self.word(0) + 16 * index
    }

    fn kind(&self, index: u64) -> u64 {
        self.byte(self.at(index))
    }

    fn flag(&self, index: u64) -> u64 {
        self.byte(self.at(index) + 1)
    }

    /// The 16-bit fields by their place: 2 peer, 4 communicator, 6 zero,
    /// 8 tag, 10 offset, 12 length, 14 slot.
    fn field(&self, index: u64, place: u64) -> u64 {
        self.word(self.at(index) + place)
    }

    /// The rank whose script holds the operation.
    fn rank_of(&self, index: u64) -> u64 {
        (0..self.word(0))
            .find(|&rank| {
                let first = self.board(rank, 0);
                first <= index && index < first + self.board(rank, 2)
            })
            .expect("the counts total N")
    }

    fn fields_right(&self, index: u64) -> bool {
        let kind = self.kind(index);
        let (flag, slot) = (self.flag(index), self.field(index, 14));
        if kind == 6 || kind == 8 {
            return flag == 0 && slot <= 31 && self.zero(index, &[2, 4, 6, 8, 10, 12]);
        }
        if kind == 7 {
            return self.probe_right(index);
        }
        let receive = kind == 5;
        let (peer, tag) = (self.field(index, 2), self.field(index, 8));
        let (offset, length) = (self.field(index, 10), self.field(index, 12));
        let inside = match receive {
            true => self.board(self.rank_of(index), 6),
            false => self.word(12),
        };
        (1..=5).contains(&kind)
            && (flag == 0 && slot == 0 || flag == 1 && slot <= 31)
            && (peer < self.word(0) || receive && peer == 65535)
            && self.field(index, 4) < self.word(2)
            && self.field(index, 6) == 0
            && (tag <= 32767 || receive && tag == 65535)
            && length <= 4096
            && offset + length <= inside
    }

    /// "A receive's peer, communicator and tag with zeros else" (document 02,
    /// K9).
    fn probe_right(&self, index: u64) -> bool {
        let (peer, tag) = (self.field(index, 2), self.field(index, 8));
        (peer < self.word(0) || peer == 65535)
            && self.field(index, 4) < self.word(2)
            && (tag <= 32767 || tag == 65535)
            && self.flag(index) == 0
            && self.zero(index, &[6, 10, 12, 14])
    }

    fn zero(&self, index: u64, places: &[u64]) -> bool {
        places.iter().all(|&place| self.field(index, place) == 0)
    }

    /// The operations of this kind of a board.
    fn of_kind(&self, rank: u64, kind: u64) -> impl Iterator<Item = u64> + '_ {
        let mine = (0..self.word(4)).filter(move |&index| self.rank_of(index) == rank);
        mine.filter(move |&index| self.kind(index) == kind)
    }

    /// The charges of all buffered sends of a board: of each the length and 32
    /// (document 02, K2).
    fn charges(&self, rank: u64) -> u64 {
        let buffered = self.of_kind(rank, 2);
        buffered.map(|index| self.field(index, 12) + 32).sum()
    }

    fn standard_lengths(&self, rank: u64) -> u64 {
        let standard = self.of_kind(rank, 1);
        standard.map(|index| self.field(index, 12)).sum()
    }

    /// The operations of the same board before this one.
    fn earlier(&self, index: u64) -> std::ops::Range<u64> {
        self.board(self.rank_of(index), 0)..index
    }

    fn takes(&self, index: u64) -> bool {
        self.kind(index) <= 5 && self.flag(index) == 1
    }

    /// Whether the slot that operation `taker` took is held just before
    /// `index`: no wait between them names it.
    fn still_held(&self, taker: u64, index: u64) -> bool {
        let slot = self.field(taker, 14);
        !(taker + 1..index)
            .any(|between| self.kind(between) == 6 && self.field(between, 14) == slot)
    }

    fn slot_right(&self, index: u64) -> bool {
        let slot = self.field(index, 14);
        let held = self.earlier(index).any(|before| {
            self.takes(before) && self.field(before, 14) == slot && self.still_held(before, index)
        });
        // A wait or a query names a held slot.
        match (self.kind(index), self.takes(index)) {
            (6 | 8, _) => held,
            (_, true) => !held,
            (_, false) => true,
        }
    }

    /// The operations of the same board after this one.
    fn later(&self, index: u64) -> std::ops::Range<u64> {
        let rank = self.rank_of(index);
        index + 1..self.board(rank, 0) + self.board(rank, 2)
    }

    /// Takes a slot that no later wait of its script names (document 02, K7).
    fn forgotten(&self, index: u64) -> bool {
        let slot = self.field(index, 14);
        let frees = |after: u64| self.kind(after) == 6 && self.field(after, 14) == slot;
        self.takes(index) && !self.later(index).any(frees)
    }

    fn area(&self, index: u64) -> std::ops::Range<u64> {
        let offset = self.field(index, 10);
        offset..offset + self.field(index, 12)
    }

    fn area_right(&self, index: u64) -> bool {
        let shares = |before: u64| {
            let other = self.area(before);
            self.area(index).any(|byte| other.contains(&byte))
        };
        self.kind(index) != 5
            || !self.earlier(index).any(|before| {
                self.kind(before) == 5
                    && self.takes(before)
                    && self.still_held(before, index)
                    && shares(before)
            })
    }
}
