//! The library's calls from Rust: what include/presence_hub.h declares, and a hub that owns its memory.
use std::ffi::c_void;

/// How many bytes a hub takes.
pub const SIZE: usize = 20016;

/// How far a handle came.
#[repr(C)]
#[derive(Clone, Copy, Debug, Default)]
pub struct Handled {
    pub messages: usize,
    pub place: usize,
    pub replies: usize,
    pub wire: u8,
}

/// How many clients each of the four lists of an apply has.
#[repr(C)]
#[derive(Clone, Copy, Debug, Default)]
pub struct Changes {
    pub added: usize,
    pub updated: usize,
    pub changed: usize,
    pub removed: usize,
}

/// What is held of a client.
#[repr(C)]
#[derive(Clone, Copy, Debug, Default)]
pub struct Record {
    pub time: u64,
    pub clock: u32,
    pub held: bool,
    pub live: bool,
    pub text: usize,
}

/// Places for the four lists of an apply: added, updated, changed and removed.
pub type Lists = [[u64; 64]; 4];

#[repr(C)]
struct Raw {
    memory: *mut c_void,
    size: usize,
    made: bool,
}

#[rustfmt::skip]
unsafe extern "C" {
    fn presence_hub_size() -> usize;
    fn presence_hub_new(hub: &mut Raw, own: u64, reading: u64) -> u8;
    fn presence_hub_set_clock(hub: &mut Raw, reading: u64) -> u8;
    fn presence_hub_handle(hub: &mut Raw, bytes: *const u8, len: usize, replies: *mut u8, room: usize, told: &mut Handled) -> u8;
    fn presence_hub_apply(hub: &mut Raw, update: *const u8, len: usize, added: *mut u64, places: usize, updated: *mut u64, places: usize, changed: *mut u64, places: usize, removed: *mut u64, places: usize, told: &mut Changes) -> u8;
    fn presence_hub_set(hub: &mut Raw, text: *const u8, len: usize) -> u8;
    fn presence_hub_clean(hub: &mut Raw) -> u8;
    fn presence_hub_remove(hub: &mut Raw, client: u64) -> u8;
    fn presence_hub_step1(hub: &mut Raw, out: *mut u8, room: usize, length: &mut usize) -> u8;
    fn presence_hub_start(hub: &mut Raw, out: *mut u8, room: usize, length: &mut usize) -> u8;
    fn presence_hub_show(hub: &mut Raw, client: u64, text: *mut u8, room: usize, told: &mut Record) -> u8;
    fn presence_hub_list(hub: &mut Raw, clients: *const u64, count: usize, out: *mut u8, room: usize, length: &mut usize) -> u8;
}

/// How many bytes a hub takes, as the library says.
pub fn size() -> usize {
    unsafe { presence_hub_size() }
}

/// A hub in memory of its own. Each call answers with its number, 0 where it is done.
pub struct Hub {
    // the hub lies in it; eight bytes at a time, for their alignment
    _memory: Box<[u64]>,
    raw: Raw,
}

impl Hub {
    /// A hub that is yet to be made, in so many bytes.
    pub fn within(size: usize) -> Hub {
        let mut memory = vec![0u64; size.div_ceil(8)].into_boxed_slice();
        let raw = Raw { memory: memory.as_mut_ptr().cast(), size, made: false };
        Hub { _memory: memory, raw }
    }

    pub fn make(&mut self, own: u64, reading: u64) -> u8 {
        unsafe { presence_hub_new(&mut self.raw, own, reading) }
    }

    pub fn set_clock(&mut self, reading: u64) -> u8 {
        unsafe { presence_hub_set_clock(&mut self.raw, reading) }
    }

    pub fn handle(&mut self, bytes: &[u8], replies: &mut [u8], told: &mut Handled) -> u8 {
        unsafe { presence_hub_handle(&mut self.raw, bytes.as_ptr(), bytes.len(), replies.as_mut_ptr(), replies.len(), told) }
    }

    #[rustfmt::skip]
    pub fn apply(&mut self, update: &[u8], lists: &mut Lists, told: &mut Changes) -> u8 {
        let [added, updated, changed, removed] = lists.each_mut().map(|list| list.as_mut_ptr());
        unsafe { presence_hub_apply(&mut self.raw, update.as_ptr(), update.len(), added, 64, updated, 64, changed, 64, removed, 64, told) }
    }

    pub fn set(&mut self, text: &[u8]) -> u8 {
        unsafe { presence_hub_set(&mut self.raw, text.as_ptr(), text.len()) }
    }

    pub fn clean(&mut self) -> u8 {
        unsafe { presence_hub_clean(&mut self.raw) }
    }

    pub fn remove(&mut self, client: u64) -> u8 {
        unsafe { presence_hub_remove(&mut self.raw, client) }
    }

    pub fn step1(&mut self, out: &mut [u8], length: &mut usize) -> u8 {
        unsafe { presence_hub_step1(&mut self.raw, out.as_mut_ptr(), out.len(), length) }
    }

    pub fn start(&mut self, out: &mut [u8], length: &mut usize) -> u8 {
        unsafe { presence_hub_start(&mut self.raw, out.as_mut_ptr(), out.len(), length) }
    }

    pub fn show(&mut self, client: u64, text: &mut [u8], told: &mut Record) -> u8 {
        unsafe { presence_hub_show(&mut self.raw, client, text.as_mut_ptr(), text.len(), told) }
    }

    pub fn list(&mut self, clients: &[u64], out: &mut [u8], length: &mut usize) -> u8 {
        unsafe { presence_hub_list(&mut self.raw, clients.as_ptr(), clients.len(), out.as_mut_ptr(), out.len(), length) }
    }
}
