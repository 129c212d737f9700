//! Images that keep packets, with their packet memories, for the tests.

use std::collections::BTreeMap;
use std::path::PathBuf;

use ventorupo::{Header, Settings, Switch};

use crate::common::Folder;
use crate::images::{switch, SMALL};

/// A switch that keeps packets, its packet memories, and the packet of each entry id.
pub struct Kept {
    pub switch: Switch<Vec<u8>>,
    pub memories: [Vec<u8>; 4],
    pub packets: BTreeMap<u64, Vec<u8>>,
}

impl Kept {
    pub fn new(settings: Settings) -> Kept {
        let settings = settings.with_packets();
        Kept {
            switch: switch(settings),
            // What is left of others.
            memories: [(); 4].map(|()| vec![0xEE; settings.packet_memory()]),
            packets: BTreeMap::new(),
        }
    }

    /// The packet of this header arrives at its source; its data counts up.
    pub fn arrive(&mut self, header: Header) {
        let mut packet = ventorupo::Form::TEN_BYTES.write(&header).unwrap().to_vec();
        packet.extend((10..header.length).map(|i| (i + header.transaction) as u8));
        let own = &mut self.memories[header.source as usize];
        let entry = self.switch.arrive_packet(own, header.source, &packet);
        self.packets.insert(entry.unwrap().0.into(), packet);
    }

    /// The files of image and packet memories in a folder.
    pub fn files(&self, folder: &Folder) -> (PathBuf, [PathBuf; 4]) {
        let image = folder.file("image", self.switch.memory());
        let name = |port: usize| folder.file(format!("p{port}"), &self.memories[port]);
        (image, [0, 1, 2, 3].map(name))
    }
}

/// Two nodes a port, and packets in every kind of list: prefetch and egress of port 1,
/// queue 5 have nodes 1 and 0 of port 0; ingress of port 2 has both of its own, the
/// shortest and the longest packet.
pub fn kept() -> Kept {
    let mut kept = Kept::new(SMALL);
    kept.switch.map(1, 1).unwrap();
    let through = Header {
        queue: 5,
        length: 17,
        transaction: 7,
        ..Header::default()
    };
    // So that node 1 is the older then.
    kept.arrive(through);
    kept.switch.credit(0, 5, 1).unwrap();
    kept.switch.round().unwrap();
    for (length, transaction) in [(15, 0x10), (76, 0x20)] {
        kept.arrive(Header {
            destination: 1,
            length,
            transaction,
            ..through
        });
        kept.switch.stitch(0).unwrap();
    }
    kept.switch.prefetch(1, 5).unwrap();
    for (length, transaction) in [(12, 0x30), (8191, 0x40)] {
        kept.arrive(Header {
            source: 2,
            length,
            transaction,
            ..Header::default()
        });
    }
    kept
}
