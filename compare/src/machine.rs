//! A lent machine: the functions of `include/keymap.h` on bytes of ours.

macro_rules! functions {
    ($(fn $name:ident($($argument:ident: $sort:ty),*) -> $result:ty;)*) => {
        #[cfg(linked)]
        extern "C" { $(fn $name($($argument: $sort),*) -> $result;)* }
        // without the archive the callers are still compiled
        $(#[cfg(not(linked))]
        unsafe fn $name($(_: $sort),*) -> $result { crate::ours::not_linked() })*
    };
}

functions! {
    fn keymap_size() -> usize;
    fn keymap_open(machine: *mut u64, map: *const u8, map_count: usize) -> u64;
    fn keymap_bind(machine: *mut u64, binding: *const u8, binding_count: usize) -> u64;
    fn keymap_key(machine: *mut u64, key: u16, budget: u16) -> u64;
    fn keymap_pop(machine: *mut u64) -> u64;
    fn keymap_repeat(machine: *mut u64, sequence: u16) -> u64;
    fn keymap_repeat_over(machine: *mut u64, sequence: u16, count: u32, mark: u16) -> u64;
    fn keymap_reset(machine: *mut u64) -> u64;
    fn keymap_mode(machine: *const u64) -> u64;
    fn keymap_find(machine: *const u64, mode: u16, action: u16) -> u64;
    fn keymap_free(machine: *const u64) -> u64;
    fn keymap_write(machine: *const u64, output: *mut u8, output_count: usize) -> u64;
    fn keymap_change(machine: *mut u64, map: *const u8, map_count: usize) -> u64;
}

const HEADER: &str = include_str!("../../include/keymap.h");

/// What every word holds at first: a machine may be opened over any bytes. The words behind it must hold it always.
const FIRST: u64 = 0xAAAA_AAAA_AAAA_AAAA;
const BEHIND: usize = 8;

pub struct Machine {
    words: Vec<u64>,
    /// The words as they were where the machine last lay.
    before: Vec<u64>,
}

impl Machine {
    /// As large as the header says, which the archive must say too.
    pub fn lent() -> Self {
        let word = HEADER.lines().find_map(|l| l.strip_prefix("#define KEYMAP_SIZE "));
        let size = word.and_then(|w| w.parse::<usize>().ok()).expect("keymap.h has KEYMAP_SIZE");
        if size != unsafe { keymap_size() } {
            crate::stop("keymap.h and the archive are of different versions: they differ in the size of a machine");
        }
        let words = vec![FIRST; size / 8 + BEHIND];
        Machine { before: words.clone(), words }
    }

    /// Puts the machine to another place, as C may between calls.
    pub fn move_elsewhere(&mut self) {
        self.before.copy_from_slice(&self.words);
        std::mem::swap(&mut self.words, &mut self.before);
    }

    /// Whether it is as it was when it was last moved.
    pub fn is_as_before(&self) -> bool {
        self.words == self.before
    }

    pub fn kept_within(&self) -> bool {
        self.words[self.words.len() - BEHIND..].iter().all(|&w| w == FIRST)
    }
}

// ---- the calls: each is given the machine's whole bytes, and slices that C only reads, but for the output. A call that looks
// gets a pointer that may be written too, so that a write by it would be seen.

impl Machine {
    pub fn open(&mut self, map: &[u8]) -> u64 {
        unsafe { keymap_open(self.words.as_mut_ptr(), map.as_ptr(), map.len()) }
    }

    pub fn bind(&mut self, binding: &[u8]) -> u64 {
        unsafe { keymap_bind(self.words.as_mut_ptr(), binding.as_ptr(), binding.len()) }
    }

    pub fn key(&mut self, key: u16, budget: u16) -> u64 {
        unsafe { keymap_key(self.words.as_mut_ptr(), key, budget) }
    }

    pub fn pop(&mut self) -> u64 {
        unsafe { keymap_pop(self.words.as_mut_ptr()) }
    }

    pub fn repeat(&mut self, sequence: u16) -> u64 {
        unsafe { keymap_repeat(self.words.as_mut_ptr(), sequence) }
    }

    pub fn repeat_over(&mut self, sequence: u16, count: u32, mark: u16) -> u64 {
        unsafe { keymap_repeat_over(self.words.as_mut_ptr(), sequence, count, mark) }
    }

    pub fn reset(&mut self) -> u64 {
        unsafe { keymap_reset(self.words.as_mut_ptr()) }
    }

    pub fn mode(&mut self) -> u64 {
        unsafe { keymap_mode(self.words.as_mut_ptr()) }
    }

    pub fn find(&mut self, mode: u16, action: u16) -> u64 {
        unsafe { keymap_find(self.words.as_mut_ptr(), mode, action) }
    }

    pub fn free(&mut self) -> u64 {
        unsafe { keymap_free(self.words.as_mut_ptr()) }
    }

    pub fn change(&mut self, map: &[u8]) -> u64 {
        unsafe { keymap_change(self.words.as_mut_ptr(), map.as_ptr(), map.len()) }
    }

    pub fn write(&mut self, output: &mut [u8]) -> u64 {
        unsafe { keymap_write(self.words.as_mut_ptr(), output.as_mut_ptr(), output.len()) }
    }
}
