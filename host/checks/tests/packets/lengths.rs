//! Packets of every class of length, at every beat: stored, shown and sent.

use model::{price, Call, Reply, Settings, LONGEST};

use crate::Side;

/// The shortest, the longest, and about every edge of a beat.
fn lengths(beat: u32) -> Vec<u32> {
    let edges = (1..=LONGEST / beat + 1).flat_map(|k| [k * beat - 1, k * beat, k * beat + 1]);
    let mut lengths: Vec<u32> = [12, 13].into_iter().chain(edges).collect();
    lengths.retain(|&length| (12..=LONGEST).contains(&length));
    lengths
}

#[test]
fn every_edge_of_a_beat_is_among_them() {
    for beat in [64, 128, 256, 512] {
        let lengths = lengths(beat);
        assert_eq!(lengths[..3], [12, 13, beat - 1]);
        assert_eq!(lengths[lengths.len() - 1], 8191);
        assert_eq!(lengths.len() as u32, 2 + 3 * (8192 / beat) - 2);
    }
}

/// Long ones first, so that a shorter one leaves what is behind it.
#[test]
fn packets_of_every_length() {
    for beat in [64, 128, 256, 512] {
        let settings = Settings::ten_bytes(3, beat, 2, 128).with_packets();
        let mut side = Side::begun(settings, 3);
        let mut lengths = lengths(beat);
        lengths.reverse();
        for (number, &length) in (0..).zip(&lengths) {
            let (port, queue) = (number % 4, number % 24);
            let (entry, packet) = side.bring(port, queue, length);
            assert_eq!(packet.len(), length as usize);
            side.compare();
            side.call(&Call::Stitch { port });
            side.call(&Call::Prefetch { port: 0, queue });
            assert_eq!(side.shown(0, queue), packet);
            let amount = price(length, queue, beat);
            side.call(&Call::Credit {
                port: 0,
                queue,
                amount,
            });
            match side.call(&Call::Turn { port: 0 }) {
                Reply::Leaves(sent, _) => {
                    assert_eq!((sent.entry, u32::from(sent.length)), (entry, length));
                }
                other => panic!("{other:?}"),
            }
            side.compare();
        }
    }
}

/// Every count of bytes about the header's length, and far from it.
#[test]
fn packets_of_every_other_count() {
    let settings = Settings::ten_bytes(2, 64, 1, 200).with_packets();
    let mut side = Side::begun(settings, 2);
    let lent = settings.packet_memory();
    for length in [12, 13, 64, 65, 1000, 8190, 8191] {
        let (_, packet) = {
            let mut fresh = Side::begun(settings, 2);
            fresh.bring(0, 3, length)
        };
        let many = [&packet[..], &[0xC3; 70_000]].concat();
        let right = packet.len();
        let near = (right - 2..right + 3).filter(|&bytes| bytes != right);
        for bytes in
            (0..12)
                .chain(near)
                .chain([right + 64, right + 256, right + 8192, right + 65_536, 8192])
        {
            if bytes == right {
                continue;
            }
            let reply = side.call(&Call::ArrivePacket {
                port: 0,
                packet: many[..bytes].to_vec(),
                lent,
            });
            assert_eq!(reply, Reply::Refused(16), "{bytes} bytes of {length}");
            side.compare();
        }
    }
    assert_eq!(side.bring(0, 3, 1000).0, 0);
}
