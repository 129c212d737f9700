//! The proved test for a state, which every call but setup, the finding and the
//! repair asks first, by itself: for checks and benchmarks alone.

mod c {
    extern "C" {
        pub fn rule_test(mem: *const u8, len: usize) -> u32;
    }
}

/// Whether a memory is a switch state: one walk of the lists.
pub fn is_state(memory: &[u8]) -> bool {
    // Sound: the slice's own pointer and length, read alone.
    unsafe { c::rule_test(memory.as_ptr(), memory.len()) == 0 }
}
