//! Our side: the exported run, the crates `bench` and `benchkeys`, and the machine that is lent to each call.

use crate::archive;
use crate::inputs::{numbers, BUDGET};
use crate::sum::Sum;

extern "C" {
    fn bench_keys_in_place(map: *const u8, map_count: usize, keys: *const u16, keys_count: usize, budget: u16) -> u64;
    fn bench_keys_by_value(map: *const u8, map_count: usize, keys: *const u16, keys_count: usize, budget: u16) -> u64;
    fn bench_other_calls(map: *const u8, map_count: usize) -> u64;
    fn bench_opens(times: u16) -> u64;
    fn bench_mappings(map: *const u8, map_count: usize, times: u16) -> u64;
    fn bench_prefixes(map: *const u8, map_count: usize, times: u16) -> u64;
    fn bench_inputs(map: *const u8, map_count: usize, times: u16) -> u64;
    fn bench_repeats(map: *const u8, map_count: usize, times: u16) -> u64;
    fn bench_resets(map: *const u8, map_count: usize, times: u16) -> u64;
    fn bench_changes(map: *const u8, map_count: usize, times: u16) -> u64;
    fn bench_finds(map: *const u8, map_count: usize, times: u16) -> u64;
}

/// The run's result; its pairs stand in the output.
pub fn run(map: &[u8], keys: &[u8], output: &mut [u8]) -> u64 {
    archive::run(map, keys, output, BUDGET)
}

/// What the pairs of a run came to, or its refusal.
pub fn sum_of_run(result: u64, output: &[u8]) -> Result<Sum, u64> {
    if result % 32 != 0 {
        return Err(result % 32);
    }
    let mut sum = Sum::default();
    for pair in numbers(&output[..(result / 32) as usize]).chunks(3) {
        sum.add_written([pair[0], pair[1], pair[2]]);
    }
    Ok(sum)
}

pub fn in_place(map: &[u8], keys: &[u16]) -> Sum {
    Sum::of_word(unsafe { bench_keys_in_place(map.as_ptr(), map.len(), keys.as_ptr(), keys.len(), BUDGET) })
}

pub fn by_value(map: &[u8], keys: &[u16]) -> Sum {
    Sum::of_word(unsafe { bench_keys_by_value(map.as_ptr(), map.len(), keys.as_ptr(), keys.len(), BUDGET) })
}

/// Map, prefix, repeat, reset, find and hint by value, once each, and a sequence by value that one pair is pushed to: the node
/// of the mapping that was added, the nodes that are left, and the pairs that the sequence remembers.
pub fn other_calls(map: &[u8]) -> (u16, u16, u16) {
    let answer = unsafe { bench_other_calls(map.as_ptr(), map.len()) };
    (answer as u16, (answer >> 16) as u16, (answer >> 32) as u16)
}

/// One change of map by value.
pub fn change(map: &[u8]) -> u64 {
    call(bench_changes, map, 1)
}

/// A call by value, so many times, on the machine of a map. The answer depends on what each call gave.
pub type Call = unsafe extern "C" fn(*const u8, usize, u16) -> u64;

unsafe extern "C" fn opens(_: *const u8, _: usize, times: u16) -> u64 {
    bench_opens(times)
}

/// How often a call is made on one machine. One that binds is kept each time, and a machine of a thousand bindings has room for
/// some twenty more.
pub const MANY: u16 = 2_000;
pub const FEW: u16 = 20;

/// The calls that are timed one by one, with how often on one machine.
pub const CALLS: [(&str, Call, u16); 8] = [
    ("open, with 16 modes and 64 rules", opens, MANY),
    ("add_mapping, two keys", bench_mappings, FEW),
    ("add_prefix, two keys", bench_prefixes, FEW),
    ("input_key", bench_inputs, MANY),
    ("repeat, 64 pairs remembered", bench_repeats, MANY),
    ("reset_mode", bench_resets, MANY),
    ("change, with no key on the trail", bench_changes, MANY),
    ("find, mostly of an action that no step has", bench_finds, MANY),
];

pub fn call(call: Call, map: &[u8], times: u16) -> u64 {
    unsafe { call(map.as_ptr(), map.len(), times) }
}

/// What one call leaves shows that it was not refused: a key and a repeat leave so many pairs, a mapping of two keys makes a node
/// more than a prefix of two, and a change comes to the root of mode 0.
pub fn check_calls(map: &[u8]) {
    assert_eq!(call(bench_inputs, map, 1), 1);
    assert_eq!(call(bench_repeats, map, 1), 64);
    assert_eq!(call(bench_changes, map, 1), 0);
    assert_eq!(call(bench_mappings, map, 1), call(bench_prefixes, map, 1) + 1);
}

/// Calls on one machine that is lent.
pub mod lent {
    use super::*;

    extern "C" {
        fn keymap_size() -> usize;
        fn keymap_open(machine: *mut u64, map: *const u8, map_count: usize) -> u64;
        fn keymap_change(machine: *mut u64, map: *const u8, map_count: usize) -> u64;
        fn keymap_key(machine: *mut u64, key: u16, budget: u16) -> u64;
        fn keymap_pop(machine: *mut u64) -> u64;
        fn keymap_bind(machine: *mut u64, binding: *const u8, binding_count: usize) -> u64;
        fn keymap_mode(machine: *const u64) -> u64;
        fn keymap_find(machine: *const u64, mode: u16, action: u16) -> u64;
        fn keymap_free(machine: *const u64) -> u64;
        fn keymap_write(machine: *const u64, output: *mut u8, output_count: usize) -> u64;
    }

    /// The calls that can be made again and again, beside keys and pops.
    pub const CALLS: [(&str, fn(&mut Lent) -> u64); 3] = [
        ("`keymap_find`, of an action that no step has", Lent::find),
        ("`keymap_mode`", Lent::mode),
        ("`keymap_free`", Lent::free),
    ];

    #[derive(Clone)]
    pub struct Lent(Vec<u64>);

    impl Lent {
        pub fn open(map: &[u8]) -> Self {
            let mut machine = Lent(vec![0u64; unsafe { keymap_size() }.div_ceil(8)]);
            assert_eq!(machine.reopen(map), 0, "the map is refused");
            machine
        }

        pub fn reopen(&mut self, map: &[u8]) -> u64 {
            unsafe { keymap_open(self.0.as_mut_ptr(), map.as_ptr(), map.len()) }
        }

        pub fn change(&mut self, map: &[u8]) -> u64 {
            unsafe { keymap_change(self.0.as_mut_ptr(), map.as_ptr(), map.len()) }
        }

        /// Its bytes are those of another machine from now on.
        pub fn put_back(&mut self, other: &Lent) {
            self.0.copy_from_slice(&other.0);
        }

        pub fn write(&self, output: &mut [u8]) -> u64 {
            unsafe { keymap_write(self.0.as_ptr(), output.as_mut_ptr(), output.len()) }
        }

        /// A mapping in mode 1 of the keys 1 and 2 with action 3. Bound again it makes no node, but is kept.
        pub fn bind(&mut self) -> u64 {
            let binding = [0, 1, 2, 0, 0, 1, 0, 0, 2, 0, 1, 3, 0, 0, 0];
            unsafe { keymap_bind(self.0.as_mut_ptr(), binding.as_ptr(), binding.len()) }
        }

        fn find(&mut self) -> u64 {
            unsafe { keymap_find(self.0.as_ptr(), 1, 65_535) }
        }

        fn mode(&mut self) -> u64 {
            unsafe { keymap_mode(self.0.as_ptr()) }
        }

        fn free(&mut self) -> u64 {
            unsafe { keymap_free(self.0.as_ptr()) }
        }

        /// One key, whose pairs stay: the rounds made, times 32, and the refusal.
        pub fn key(&mut self, key: u16, budget: u16) -> u64 {
            unsafe { keymap_key(self.0.as_mut_ptr(), key, budget) }
        }

        pub fn press(&mut self, keys: &[u16]) -> Sum {
            let mut sum = Sum::default();
            let machine = self.0.as_mut_ptr();
            for &key in keys {
                unsafe { keymap_key(machine, key, BUDGET) };
                loop {
                    let pair = unsafe { keymap_pop(machine) };
                    if pair == 0 {
                        break;
                    }
                    let count = (pair >> 49 & 1 == 1).then_some((pair >> 16) as u16);
                    sum.add(pair as u16, count, (pair >> 32) as u16);
                }
            }
            sum
        }
    }
}
