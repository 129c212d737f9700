//! The same calls through the safe wrapper's typed answers.

use model::{Call, ListKind, Packet, Part, Reply, Side};
use ventorupo::{EntryId, Refusal, RoundTurn, Settings, Switch, Turn};

use crate::packets::Packets;
use crate::tables::SETTINGS_END;
use crate::{library, reader};

/// The bytes that a round writes, as far as the settings say.
fn round_bytes(memory: &[u8]) -> usize {
    match memory.len() < SETTINGS_END {
        true => 0,
        false => reader::settings(memory).shape().round_bytes(),
    }
}

/// Make the call through a `Switch` that borrows this memory, and on packet memories
/// of its own if it is lent such.
pub fn call(memory: &mut [u8], call: &Call) -> Result<Reply, String> {
    with_packets(memory, &mut Packets::for_call(call), call)
}

/// The same on these packet memories.
pub fn with_packets(
    memory: &mut [u8],
    packets: &mut Packets,
    call: &Call,
) -> Result<Reply, String> {
    let round_bytes = round_bytes(memory);
    let mut switch = Switch::over(&mut *memory);
    let reply = match call {
        Call::Setup(s) => {
            let settings = Settings::wide(s.ports, s.queues).edition(s.edition);
            let settings = settings.nodes(s.nodes).beat(s.beat).slots(s.slots);
            let settings = settings.credit(s.credit).packets(s.packets);
            switch.setup_again(settings).map(|()| Reply::Done)
        }
        Call::Arrive { port, header } => switch.arrive(*port, header).map(entry),
        Call::ArrivePacket { port, packet, lent } => {
            let lent = packets.of_port(*port, *lent);
            switch.arrive_packet(lent, *port, packet).map(entry)
        }
        Call::Show { port, queue, lent } => {
            let lent = packets.all(lent);
            let shown = switch.show(lent, *port, *queue);
            shown.map(|shown| Reply::Shown(part(lent, shown)))
        }
        Call::Stitch { port } => switch.stitch(*port).map(|record| {
            let mut bytes = Vec::new();
            bytes.extend(record.entry.0.to_be_bytes());
            bytes.extend(record.length.to_be_bytes());
            bytes.extend([record.queue, record.port]);
            bytes.extend(record.timestamp.to_be_bytes());
            Reply::Stitched(bytes.try_into().unwrap())
        }),
        Call::Prefetch { port, queue } => switch.prefetch(*port, *queue).map(entry),
        Call::Credit {
            port,
            queue,
            amount,
        } => switch.credit(*port, *queue, *amount).map(|()| Reply::Done),
        Call::Map { id, port } => switch.map(*id, *port).map(|()| Reply::Done),
        Call::Turn { port } => switch.turn(*port).map(turned),
        Call::Ready { port } => switch
            .ready(*port)
            .map(|ready| Reply::Word(ready.word, ready.count)),
        Call::Where { entry } => match u16::try_from(*entry) {
            Ok(id) => switch.place_of(EntryId(id)).map(|place| {
                assert_eq!(place.entry, EntryId(id));
                Reply::Found(list(place.list), place.position.into())
            }),
            // The wrapper's entry ids have no room for it.
            Err(_) => return library::call(memory, call),
        },
        Call::Clear { port } => switch.clear(*port).map(|()| Reply::Done),
        Call::Report { port } => switch.report(*port).map(|halt| {
            let mark = halt.map_or(0, |halt| halt.number());
            Reply::Mark(mark as u8)
        }),
        Call::TimedTurn { port, now } => switch.timed_turn(*port, *now).map(turned),
        Call::Bucket { port, bucket } => switch.bucket(*port, *bucket).map(|count| {
            let all = switch.buckets(*port).unwrap();
            assert_eq!(all[*bucket as usize], count);
            Reply::Count(count)
        }),
        // The typed round lends room enough, always.
        Call::Round { room } if room.len() < round_bytes => {
            let mut lent = room.clone();
            let answer = switch.round_into(&mut lent).map(|()| Reply::Done);
            assert_eq!(lent, *room);
            answer
        }
        Call::Round { .. } => switch.round().map(|of_ports| turns(&of_ports)),
    };
    Ok(reply.unwrap_or_else(|refusal: Refusal| Reply::Refused(refusal.number() as u8)))
}

fn entry(id: EntryId) -> Reply {
    assert_eq!(id.port() * 2048 + id.index(), id.0);
    Reply::Entry(id.0)
}

/// Where a part lies: found by its address, since it must be no copy.
fn part(lent: [&[u8]; 4], shown: &[u8]) -> Part {
    let first = |bytes: &[u8]| bytes.as_ptr() as usize;
    let owner = lent.iter().position(|memory| {
        let end = first(memory) + memory.len();
        (first(memory)..end).contains(&first(shown))
    });
    let owner = owner.expect("a part of a packet memory");
    Part {
        owner: owner as u32,
        at: (first(shown) - first(lent[owner])) as u64,
        length: shown.len() as u32,
    }
}

fn turned(turn: Turn) -> Reply {
    let sent = match turn {
        Turn::Idle => return Reply::Idle,
        Turn::Sent(sent) => sent,
    };
    let side = match sent.side {
        ventorupo::Side::Inside => Side::Inside,
        ventorupo::Side::Outside => Side::Outside,
    };
    let packet = Packet {
        entry: sent.entry.0,
        length: sent.length,
        queue: sent.queue,
        destination: sent.destination as u8,
        timestamp: sent.timestamp,
        poisoned: sent.poisoned,
        transaction: sent.transaction,
        price: sent.price.into(),
    };
    Reply::Leaves(packet, side)
}

fn turns(of_ports: &[RoundTurn]) -> Reply {
    let told = |turn: &RoundTurn| match turn {
        RoundTurn::Refused(refusal) => [refusal.number() as u8, 0, 0, 0],
        RoundTurn::Idle => [0, 1, 0, 0],
        RoundTurn::Sent(entry) => [0, 0, (entry.0 >> 8) as u8, entry.0 as u8],
    };
    Reply::Turns(of_ports.iter().flat_map(told).collect())
}

fn list(kind: ventorupo::ListKind) -> ListKind {
    match kind {
        ventorupo::ListKind::Free { port } => ListKind::Free { port: port.into() },
        ventorupo::ListKind::Ingress { port } => ListKind::Ingress { port: port.into() },
        ventorupo::ListKind::Egress { port, queue } => ListKind::Egress {
            port: port.into(),
            queue: queue.into(),
        },
        ventorupo::ListKind::Prefetch { port, queue } => ListKind::Prefetch {
            port: port.into(),
            queue: queue.into(),
        },
    }
}
