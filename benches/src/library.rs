//! The proved library, called through its static library: a state in parts, which are lent, and the calls on it.

use model::twin::told::{Counts, Told};

/// The parts of a state: its numbers, the free node numbers, the lengths and the pages of the lists, the erases of each block, the reservation buffer.
type Numbers = [u32; 6];
type Free = [u64; 4];
type Lens = [u32; 256];
type Slots = [u32; 1024];
type Erases = [u64; 32];
type Buffer = [u8; 11520];

/// The number of the small part, which format, mount and rebuild take.
const SMALL: u32 = 0;

/// What a call counts: data programs, marks set, erases.
type Ops = [u32; 3];

extern "C" {
    fn vehinoke_look_up(
        numbers: &Numbers,
        lens: &Lens,
        slots: &Slots,
        buffer: &Buffer,
        image: *const u8,
        image_len: usize,
        key: u32,
        told: &mut [u32; 2],
    ) -> u32;
    fn vehinoke_insert(
        numbers: &mut Numbers,
        free: &mut Free,
        lens: &Lens,
        slots: &Slots,
        buffer: &mut Buffer,
        image: *const u8,
        image_len: usize,
        key: u32,
        value: u32,
    ) -> u32;
    fn vehinoke_delete(
        numbers: &mut Numbers,
        free: &mut Free,
        lens: &Lens,
        slots: &Slots,
        buffer: &mut Buffer,
        image: *const u8,
        image_len: usize,
        key: u32,
    ) -> u32;
    fn vehinoke_block_report(
        numbers: &Numbers,
        erases: &Erases,
        image: *const u8,
        image_len: usize,
        block: u32,
        told: &mut [u64; 3],
    ) -> u32;
    fn vehinoke_format(
        numbers: &mut Numbers,
        free: &mut Free,
        lens: &mut Lens,
        slots: &mut Slots,
        erases: &mut Erases,
        image: *mut u8,
        image_len: usize,
        torn: *const u8,
        torn_len: usize,
        part: u32,
        allowance: u32,
        ops: &mut Ops,
    ) -> u32;
    fn vehinoke_mount(
        numbers: &mut Numbers,
        free: &mut Free,
        lens: &mut Lens,
        slots: &mut Slots,
        erases: &mut Erases,
        image: *mut u8,
        image_len: usize,
        torn: *const u8,
        torn_len: usize,
        part: u32,
        allowance: u32,
        ops: &mut Ops,
    ) -> u32;
    fn vehinoke_rebuild(
        numbers: &mut Numbers,
        free: &mut Free,
        lens: &mut Lens,
        slots: &mut Slots,
        erases: &mut Erases,
        image: *mut u8,
        image_len: usize,
        torn: *const u8,
        torn_len: usize,
        part: u32,
        allowance: u32,
        ops: &mut Ops,
    ) -> u32;
    fn vehinoke_commit(
        numbers: &mut Numbers,
        lens: &mut Lens,
        slots: &mut Slots,
        erases: &mut Erases,
        buffer: &Buffer,
        image: *mut u8,
        image_len: usize,
        torn: *const u8,
        torn_len: usize,
        allowance: u32,
        ops: &mut Ops,
    ) -> u32;
    fn vehinoke_forecast(
        numbers: &Numbers,
        lens: &Lens,
        slots: &Slots,
        buffer: &Buffer,
        image: *const u8,
        image_len: usize,
        ops: &mut Ops,
    ) -> u32;
    pub fn vehinoke_is_free(page: *const u8, page_len: usize) -> u32;
}

/// Whether all bytes of a page are 255: 1, else 0.
pub fn is_free(page: &[u8]) -> u32 {
    unsafe { vehinoke_is_free(page.as_ptr(), page.len()) }
}

/// A state of the proved library, as its caller keeps it.
#[derive(Clone)]
pub struct Library {
    numbers: Numbers,
    free: Free,
    lens: Box<Lens>,
    slots: Box<Slots>,
    erases: Erases,
    buffer: Box<Buffer>,
}

/// What format, mount, rebuild, commit and forecast tell, by the refusal that they return and the counts that they leave.
fn told(refusal: u32, [programs, marks, erases]: Ops) -> Told {
    Told { refusal, counts: Counts { programs, marks, erases } }
}

impl Library {
    /// A state that is off.
    pub fn new() -> Library {
        Library {
            numbers: [0; 6],
            free: [0; 4],
            lens: Box::new([0; 256]),
            slots: Box::new([0; 1024]),
            erases: [0; 32],
            buffer: Box::new([0; 11520]),
        }
    }

    /// The state made equal to another, in place.
    pub fn set(&mut self, other: &Library) {
        self.numbers = other.numbers;
        self.free = other.free;
        self.lens.clone_from(&other.lens);
        self.slots.clone_from(&other.slots);
        self.erases = other.erases;
        self.buffer.clone_from(&other.buffer);
    }

    /// Each pointer below is followed by the length of the slice that it comes from.
    pub fn format(&mut self, image: &mut [u8], torn: &[u8], allowance: u32) -> Told {
        let mut ops = [0; 3];
        let (i, t) = (image.as_mut_ptr(), torn.as_ptr());
        let (n, f, l, s, e) = (&mut self.numbers, &mut self.free, &mut self.lens, &mut self.slots, &mut self.erases);
        let refusal = unsafe { vehinoke_format(n, f, l, s, e, i, image.len(), t, torn.len(), SMALL, allowance, &mut ops) };
        told(refusal, ops)
    }

    pub fn mount(&mut self, image: &mut [u8], torn: &[u8], allowance: u32) -> Told {
        let mut ops = [0; 3];
        let (i, t) = (image.as_mut_ptr(), torn.as_ptr());
        let (n, f, l, s, e) = (&mut self.numbers, &mut self.free, &mut self.lens, &mut self.slots, &mut self.erases);
        let refusal = unsafe { vehinoke_mount(n, f, l, s, e, i, image.len(), t, torn.len(), SMALL, allowance, &mut ops) };
        told(refusal, ops)
    }

    pub fn rebuild(&mut self, image: &mut [u8], torn: &[u8], allowance: u32) -> Told {
        let mut ops = [0; 3];
        let (i, t) = (image.as_mut_ptr(), torn.as_ptr());
        let (n, f, l, s, e) = (&mut self.numbers, &mut self.free, &mut self.lens, &mut self.slots, &mut self.erases);
        let refusal = unsafe { vehinoke_rebuild(n, f, l, s, e, i, image.len(), t, torn.len(), SMALL, allowance, &mut ops) };
        told(refusal, ops)
    }

    pub fn commit(&mut self, image: &mut [u8], torn: &[u8], allowance: u32) -> Told {
        let mut ops = [0; 3];
        let (i, t) = (image.as_mut_ptr(), torn.as_ptr());
        let (n, l, s, e, b) = (&mut self.numbers, &mut self.lens, &mut self.slots, &mut self.erases, &self.buffer);
        let refusal = unsafe { vehinoke_commit(n, l, s, e, b, i, image.len(), t, torn.len(), allowance, &mut ops) };
        told(refusal, ops)
    }

    /// What a commit made now would tell that has power enough.
    pub fn forecast(&self, image: &[u8]) -> Told {
        let mut ops = [0; 3];
        let (n, l, s, b) = (&self.numbers, &self.lens, &self.slots, &self.buffer);
        let refusal = unsafe { vehinoke_forecast(n, l, s, b, image.as_ptr(), image.len(), &mut ops) };
        told(refusal, ops)
    }

    /// The refusal, 0 for none, the value found and the pages read.
    pub fn look_up(&self, image: &[u8], key: u32) -> (u32, u32, u32) {
        let mut told = [0, 0];
        let (n, l, s, b) = (&self.numbers, &self.lens, &self.slots, &self.buffer);
        let refusal = unsafe { vehinoke_look_up(n, l, s, b, image.as_ptr(), image.len(), key, &mut told) };
        (refusal, told[0], told[1])
    }

    /// The refusal, 0 for none.
    pub fn insert(&mut self, image: &[u8], key: u32, value: u32) -> u32 {
        let (n, f, l, s, b) = (&mut self.numbers, &mut self.free, &self.lens, &self.slots, &mut self.buffer);
        unsafe { vehinoke_insert(n, f, l, s, b, image.as_ptr(), image.len(), key, value) }
    }

    /// The refusal, 0 for none.
    pub fn delete(&mut self, image: &[u8], key: u32) -> u32 {
        let (n, f, l, s, b) = (&mut self.numbers, &mut self.free, &self.lens, &self.slots, &mut self.buffer);
        unsafe { vehinoke_delete(n, f, l, s, b, image.as_ptr(), image.len(), key) }
    }

    /// The free pages of a block, the first free one and its erases on record; else the refusal.
    pub fn block_report(&self, image: &[u8], block: u32) -> Result<(u32, u32, u64), u32> {
        let mut told = [0, 0, 0];
        let (n, e) = (&self.numbers, &self.erases);
        match unsafe { vehinoke_block_report(n, e, image.as_ptr(), image.len(), block, &mut told) } {
            0 => Ok((told[0] as u32, told[1] as u32, told[2])),
            refusal => Err(refusal),
        }
    }
}
