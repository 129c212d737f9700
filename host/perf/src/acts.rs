//! The acts without the test for a state. They are proved for a state alone,
//! so whoever calls them has to know that the memory is one.

mod c {
    extern "C" {
        pub fn act_arrive(
            mem: *mut u8,
            len: usize,
            port: u32,
            header: *const u8,
            header_len: usize,
            entry: *mut u16,
        ) -> u32;
        pub fn act_stitch(mem: *mut u8, len: usize, port: u32, record: *mut u8) -> u32;
        pub fn act_prefetch(
            mem: *mut u8,
            len: usize,
            port: u32,
            queue: u32,
            entry: *mut u16,
        ) -> u32;
        pub fn act_credit(mem: *mut u8, len: usize, port: u32, queue: u32, amount: u32) -> u32;
        pub fn act_turn(mem: *mut u8, len: usize, port: u32, sent: *mut u8) -> u32;
        pub fn act_keep(
            packets: *mut u8,
            packets_len: usize,
            entry: u16,
            packet: *const u8,
            packet_len: usize,
        );
    }
}

use model::Call;
use ventorupo::SLOT_BYTES;

/// Whether a call has an act of its own here.
pub fn has_act(call: &Call) -> bool {
    matches!(
        call,
        Call::Arrive { .. }
            | Call::Stitch { .. }
            | Call::Prefetch { .. }
            | Call::Credit { .. }
            | Call::Turn { .. }
    )
}

/// A call's act: 0 or a refusal's number.
///
/// # Safety
///
/// The memory is a switch state: a setup made it, and only calls and acts have
/// changed it since.
pub unsafe fn act(memory: &mut [u8], call: &Call) -> u32 {
    let (mem, len) = (memory.as_mut_ptr(), memory.len());
    let mut entry = 0;
    match call {
        Call::Arrive { port, header } => {
            c::act_arrive(mem, len, *port, header.as_ptr(), header.len(), &mut entry)
        }
        Call::Stitch { port } => c::act_stitch(mem, len, *port, [0; 10].as_mut_ptr()),
        Call::Prefetch { port, queue } => c::act_prefetch(mem, len, *port, *queue, &mut entry),
        Call::Credit {
            port,
            queue,
            amount,
        } => c::act_credit(mem, len, *port, *queue, *amount),
        Call::Turn { port } => c::act_turn(mem, len, *port, [0; 16].as_mut_ptr()),
        _ => unreachable!("{:?} has no act", call),
    }
}

/// Stores a packet in the slot of a node of port 0, as its arrival does.
pub fn keep(packets: &mut [u8], node: u16, packet: &[u8]) {
    let end = (usize::from(node) + 1) * SLOT_BYTES;
    assert!(node < 2048 && end <= packets.len() && packet.len() <= SLOT_BYTES);
    // Sound: two slices with their lengths, apart; the slot lies in the first, and
    // the packet is no longer than a slot, as the act asks.
    unsafe {
        c::act_keep(
            packets.as_mut_ptr(),
            packets.len(),
            node,
            packet.as_ptr(),
            packet.len(),
        )
    }
}
