//! Packet memories of every other size, at every place.

use checks::library;
use checks::packets::Packets;
use model::{Call, Model, Reply, Settings, Shape, SLOT_BYTES};
use traffic::{plain, whole_of, Random};

/// None, a byte less or more, other switches', and some of which a part alone would
/// be right if it were cut to two bytes.
fn other_sizes(nodes: usize) -> Vec<usize> {
    let right = nodes * SLOT_BYTES;
    let mut sizes = vec![
        0,
        1,
        nodes,
        right - 1,
        right + 1,
        right - SLOT_BYTES,
        right + SLOT_BYTES,
        right + 65_536,
        right / 2,
        2 * right,
        nodes * (SLOT_BYTES - 1),
        nodes * (SLOT_BYTES + 1),
    ];
    sizes.sort_unstable();
    sizes.dedup();
    sizes
}

/// A state after setup that keeps packets or not, and the model behind it.
fn begun(settings: Settings) -> (Vec<u8>, Model) {
    let bytes = model::size(&settings);
    let (mut memory, mut model) = (vec![0; bytes], Model::new(bytes));
    let setup = Call::Setup(settings);
    assert_eq!(library::call(&mut memory, &setup), Ok(model.call(&setup)));
    (memory, model)
}

/// The call is refused so, and writes nothing anywhere.
fn refused(memory: &mut [u8], model: &mut Model, call: &Call, number: u8) {
    let before = memory.to_vec();
    let packets = &mut Packets::for_call(call);
    let answer = library::with_packets(memory, packets, call);
    assert_eq!(
        answer,
        Ok(Reply::Refused(number)),
        "{}",
        checks::in_words(call)
    );
    assert_eq!(model.call(call), Reply::Refused(number));
    assert_eq!(packets.difference(model.stored()), None);
    assert!(memory == before);
}

/// A right packet for the port, and one of no use at all.
fn packets_for(port: u32) -> [Vec<u8>; 2] {
    let header = plain(&Shape::TEN_BYTES, 0, port % 4, 0, 100);
    [whole_of(&mut Random::new(3), &header), vec![0xFF; 9]]
}

#[test]
fn an_arrival_takes_just_its_size() {
    for nodes in [1, 2, 5, 256] {
        let settings = Settings::ten_bytes(nodes, 64, 1, 16).with_packets();
        let (mut memory, mut model) = begun(settings);
        for lent in other_sizes(nodes as usize) {
            // 17 comes before 4, and before all that the packet may be.
            for port in [0, 3, 4, 70_000, u32::MAX] {
                for packet in packets_for(port) {
                    let call = Call::ArrivePacket { port, packet, lent };
                    refused(&mut memory, &mut model, &call, 17);
                }
            }
        }
        let lent = settings.packet_memory();
        let [packet, _] = packets_for(3);
        let port = 3;
        let call = Call::ArrivePacket { port, packet, lent };
        assert_eq!(library::call(&mut memory, &call), Ok(Reply::Entry(6144)));
    }
}

/// At each of the four places alone, at two of them, and at all.
#[test]
fn a_show_takes_just_four_of_their_size() {
    for nodes in [1, 2, 5] {
        let settings = Settings::ten_bytes(nodes, 64, 1, 16).with_packets();
        let (mut memory, mut model) = begun(settings);
        for other in other_sizes(nodes as usize) {
            for places in 1..16 {
                let mut lent = [settings.packet_memory(); 4];
                for (place, lent) in lent.iter_mut().enumerate() {
                    if places >> place & 1 == 1 {
                        *lent = other;
                    }
                }
                for (port, queue) in [(0, 0), (3, 23), (4, 0), (0, 24), (u32::MAX, u32::MAX)] {
                    let call = Call::Show { port, queue, lent };
                    refused(&mut memory, &mut model, &call, 17);
                }
            }
        }
        // Four sizes of which one makes up for another.
        let right = settings.packet_memory();
        let lent = [right - 1, right + 1, right, right];
        let (port, queue) = (0, 0);
        let call = Call::Show { port, queue, lent };
        refused(&mut memory, &mut model, &call, 17);
        for (port, queue, number) in [
            (4, 24, 4),
            (256, 0, 4),
            (0, 24, 5),
            (3, 256, 5),
            (3, 23, 12),
        ] {
            let lent = [right; 4];
            let call = Call::Show { port, queue, lent };
            refused(&mut memory, &mut model, &call, number);
        }
    }
}

/// 24 comes before any look at a packet memory, and 3 before 24.
#[test]
fn sizes_are_not_looked_at_before_3_and_24() {
    let ten = Settings::ten_bytes(2, 64, 1, 16);
    let wide = Settings::wide(4, 24, 2, 64, 1, 16);
    for (settings, cut, number) in [
        (ten, 0, 24),
        (wide, 0, 24),
        (Settings::wide(2, 2, 2, 64, 1, 16), 0, 24),
        (ten, 1, 3),
        (ten.with_packets(), 1, 3),
    ] {
        let (mut memory, model) = begun(settings);
        let lent = memory.len() - cut;
        // Memory that is cut is no state.
        let mut model = if cut > 0 { Model::new(lent) } else { model };
        let memory = &mut memory[..lent];
        let right = settings.packet_memory();
        for size in other_sizes(2).into_iter().chain([right]) {
            for port in [0, 4] {
                for packet in packets_for(port) {
                    let lent = size;
                    let call = Call::ArrivePacket { port, packet, lent };
                    refused(memory, &mut model, &call, number);
                }
                for lent in [[size; 4], [size, right, right, right]] {
                    let queue = 24;
                    let call = Call::Show { port, queue, lent };
                    refused(memory, &mut model, &call, number);
                }
            }
        }
    }
}
