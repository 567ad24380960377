//! The searches of the crate `waiting`, and the engine's in a job, through the C
//! boundary, behind safe functions on slices. Only our tests and their
//! benchmark use them.

/// A message that waits. The layout is the one of the C interface.
#[repr(C)]
#[derive(Clone, Copy, Debug, Default, PartialEq, Eq)]
pub struct Envelope {
    pub source: usize,
    pub communicator: usize,
    pub tag: usize,
    pub operation: usize,
}

/// What a receive asks for. A source or a tag may be any.
#[derive(Clone, Copy, Debug, PartialEq, Eq)]
pub struct Asked {
    pub source: usize,
    pub communicator: usize,
    pub tag: usize,
}

/// The messages that wait as three slices.
#[derive(Clone, Debug, Default, PartialEq, Eq)]
pub struct Slices {
    pub sources: Vec<usize>,
    pub communicators: Vec<usize>,
    pub tags: Vec<usize>,
}

impl Slices {
    pub fn of(list: &[Envelope]) -> Slices {
        Slices {
            sources: list.iter().map(|each| each.source).collect(),
            communicators: list.iter().map(|each| each.communicator).collect(),
            tags: list.iter().map(|each| each.tag).collect(),
        }
    }
}

/// The functions as C has them: a slice is a pointer and a length.
pub type InSlices = unsafe extern "C" fn(
    *const usize,
    usize,
    *const usize,
    usize,
    *const usize,
    usize,
    usize,
    usize,
    usize,
) -> usize;
pub type InEnvelopes = unsafe extern "C" fn(*const Envelope, usize, usize, usize, usize) -> usize;

pub type InJob =
    unsafe extern "C" fn(*const u8, usize, *const u8, usize, *mut u8, usize, usize, usize) -> usize;

extern "C" {
    fn searches_in_slices(
        sources: *const usize,
        sources_len: usize,
        communicators: *const usize,
        communicators_len: usize,
        tags: *const usize,
        tags_len: usize,
        source: usize,
        communicator: usize,
        tag: usize,
    ) -> usize;

    fn searches_in_envelopes(
        list: *const Envelope,
        list_len: usize,
        source: usize,
        communicator: usize,
        tag: usize,
    ) -> usize;

    fn searches_in_job(
        sheet: *const u8,
        sheet_len: usize,
        order: *const u8,
        order_len: usize,
        scratch: *mut u8,
        scratch_len: usize,
        first: usize,
        count: usize,
    ) -> usize;
}

/// The searches of one build.
#[derive(Clone, Copy)]
pub struct Searches {
    in_slices: InSlices,
    in_envelopes: InEnvelopes,
    in_job: InJob,
}

/// Those that are linked.
pub const LINKED: Searches = Searches {
    in_slices: searches_in_slices,
    in_envelopes: searches_in_envelopes,
    in_job: searches_in_job,
};

impl Searches {
    /// Those of another build.
    ///
    /// # Safety
    ///
    /// They have to be the functions of some build of the crate `searches`.
    pub unsafe fn of(in_slices: InSlices, in_envelopes: InEnvelopes, in_job: InJob) -> Searches {
        Searches {
            in_slices,
            in_envelopes,
            in_job,
        }
    }

    /// The place of the earliest that fits; the number of sources where none
    /// does, or where the slices differ in length.
    pub fn in_slices(&self, list: &Slices, asked: Asked) -> usize {
        let Slices {
            sources,
            communicators,
            tags,
        } = list;
        // SAFETY: pointers and lengths come from live slices, which are read
        // and not kept. Every content and every length is accepted.
        unsafe {
            (self.in_slices)(
                sources.as_ptr(),
                sources.len(),
                communicators.as_ptr(),
                communicators.len(),
                tags.as_ptr(),
                tags.len(),
                asked.source,
                asked.communicator,
                asked.tag,
            )
        }
    }

    /// The place of the earliest that fits; the list's length where none does.
    pub fn in_envelopes(&self, list: &[Envelope], asked: Asked) -> usize {
        // SAFETY: as in `in_slices`.
        unsafe {
            (self.in_envelopes)(
                list.as_ptr(),
                list.len(),
                asked.source,
                asked.communicator,
                asked.tag,
            )
        }
    }
    /// The sum of the places of what `count` receives from an operation on find,
    /// one after another, among the messages that are pending after an order;
    /// they take none, and one that finds nothing counts with the number of
    /// messages. 0 where the sheet is refused, scratch is short or there are no
    /// such operations.
    pub fn in_job(
        &self,
        sheet: &[u8],
        order: &[u8],
        scratch: &mut [u8],
        first: usize,
        count: usize,
    ) -> usize {
        // SAFETY: as in `in_slices`; scratch alone is written to, and shares no
        // byte with the others.
        unsafe {
            (self.in_job)(
                sheet.as_ptr(),
                sheet.len(),
                order.as_ptr(),
                order.len(),
                scratch.as_mut_ptr(),
                scratch.len(),
                first,
                count,
            )
        }
    }
}
