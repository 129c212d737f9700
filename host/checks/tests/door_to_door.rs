//! From door to door, the example: four ports, two slots, and a packet with two
//! ahead of it in ingress that finds three of its queue ahead of it in the line,
//! with outward credit for all four. Told in docs/PROMISES.md.

use traffic::header;
use ventorupo::{EntryId, ListKind, Refusal, RoundTurn, Settings, Switch};

const SETTINGS: Settings = Settings::ten_bytes().nodes(25).beat(64).slots(2).credit(16);

/// Where the packet comes in and goes out, by queue 1; 100 bytes cost 2 beats.
const IN: u32 = 1;
const OUT: u32 = 2;
const QUEUE: u32 = 1;
const PRICE: u32 = 2;

/// Destination 0 is mapped to port 0, and 1 to the port that it goes out by.
struct Scene {
    switch: Switch<Vec<u8>>,
    /// Packets of its queue that stand in the line, the oldest first.
    line: Vec<EntryId>,
    /// Two others, and behind them the packet, in ingress.
    ingress: Vec<EntryId>,
}

impl Scene {
    /// With so many of its queue in the line, two of them in the slots.
    fn new(in_line: usize) -> Scene {
        let memory = vec![0; ventorupo::size(&SETTINGS).unwrap()];
        let mut switch = Switch::setup(memory, SETTINGS).unwrap();
        switch.map(1, OUT).unwrap();
        let mut scene = Scene {
            switch,
            line: Vec::new(),
            ingress: Vec::new(),
        };
        scene.line = (0..in_line).map(|_| scene.bring(0, QUEUE)).collect();
        for _ in 0..SETTINGS.slots {
            scene.switch.prefetch(OUT, QUEUE).unwrap();
        }
        let all = PRICE * (in_line as u32 + 1);
        scene.switch.credit(OUT, QUEUE, all).unwrap();
        scene
    }

    fn arrive(&mut self, port: u32, destination: u32, queue: u32) -> EntryId {
        let header = header(destination, port, queue, 100, false, false, 0, 0, 0);
        self.switch.arrive(port, &header).unwrap()
    }

    /// A packet up to the egress list of the port that all go out by.
    fn bring(&mut self, port: u32, queue: u32) -> EntryId {
        let entry = self.arrive(port, 1, queue);
        let record = self.switch.stitch(port).unwrap();
        assert_eq!((record.entry, u32::from(record.port)), (entry, OUT));
        entry
    }

    /// The packet arrives behind two others, which go out by port 0.
    fn arrive_behind_two(&mut self) {
        let destinations = [(0, 0), (0, 0), (1, QUEUE)];
        self.ingress = destinations
            .map(|(destination, queue)| self.arrive(IN, destination, queue))
            .to_vec();
        assert_eq!(
            self.place(self.packet()),
            (ListKind::Ingress { port: 1 }, 2)
        );
    }

    fn packet(&self) -> EntryId {
        self.ingress[2]
    }

    fn place(&self, entry: EntryId) -> (ListKind, u16) {
        let place = self.switch.place_of(entry).unwrap();
        (place.list, place.position)
    }

    /// What a round sends at port 0 and at the port that all go out by.
    fn round(&mut self) -> [Option<EntryId>; 2] {
        let turns = self.switch.round().unwrap();
        [0, OUT as usize].map(|port| match turns[port] {
            RoundTurn::Sent(entry) => Some(entry),
            RoundTurn::Idle => None,
            RoundTurn::Refused(refusal) => panic!("{refusal}"),
        })
    }

    /// Just before the packet's stitch: it is the oldest in ingress, and ahead
    /// of it in the line stand these three, one in a slot and two in egress.
    fn three_are_ahead(&self, ahead: &[EntryId]) {
        let (port, queue) = (OUT as u8, QUEUE as u8);
        assert_eq!(
            self.place(self.packet()),
            (ListKind::Ingress { port: 1 }, 0)
        );
        let slots = ListKind::Prefetch { port, queue };
        let egress = ListKind::Egress { port, queue };
        let places: Vec<_> = ahead.iter().map(|&entry| self.place(entry)).collect();
        assert_eq!(places, [(slots, 0), (egress, 0), (egress, 1)]);
    }
}

/// Nothing else goes out by the port: each round sends the oldest of the queue.
#[test]
fn on_a_quiet_switch_the_packet_leaves_in_its_fourth_round() {
    let mut scene = Scene::new(5);
    scene.arrive_behind_two();
    let [a, b, c, d, e]: [EntryId; 5] = scene.line[..].try_into().unwrap();
    let [x, y, packet]: [EntryId; 3] = scene.ingress[..].try_into().unwrap();
    assert_eq!(scene.round(), [Some(x), Some(a)]);
    assert_eq!(scene.round(), [Some(y), Some(b)]);
    scene.three_are_ahead(&[c, d, e]);
    // Stitched in round 3, with two ahead of it in ingress; round 3 is its first.
    assert_eq!(scene.round(), [None, Some(c)]);
    let (port, queue) = (OUT as u8, QUEUE as u8);
    assert_eq!(scene.place(packet), (ListKind::Egress { port, queue }, 1));
    assert_eq!(scene.round(), [None, Some(d)]);
    assert_eq!(scene.round(), [None, Some(e)]);
    assert_eq!(scene.place(packet), (ListKind::Prefetch { port, queue }, 0));
    assert_eq!(scene.round(), [None, Some(packet)]);
    assert_eq!(scene.round(), [None, None]);
}

/// All 100 nodes are in use, and every queue of the port is ready whenever it
/// comes to its turn: each round sends one packet, and the packet is the last.
#[test]
fn on_a_busy_switch_the_packet_leaves_in_its_round_96() {
    let mut scene = Scene::new(4);
    // By queue: five of queue 0, four of each from 2 on.
    let mut sent = vec![Vec::new(); 24];
    sent[QUEUE as usize] = scene.line.clone();
    let mut ports = [[0; 21].as_slice(), &[1; 22], &[2; 25], &[3; 25]].concat();
    let queues = (0..24).filter(|&queue| queue != QUEUE).cycle().take(92);
    for queue in queues.chain([0]) {
        let entry = scene.bring(ports.pop().unwrap(), queue);
        sent[queue as usize].push(entry);
    }
    for queue in 2..24 {
        scene.switch.credit(OUT, queue, 4 * PRICE).unwrap();
    }
    scene.arrive_behind_two();
    let [_, c, d, e]: [EntryId; 4] = scene.line[..].try_into().unwrap();
    let packet = scene.packet();
    sent[QUEUE as usize].push(packet);
    for port in 0..4 {
        let header = header(0, port, 0, 12, false, false, 0, 0, 0);
        let answer = scene.switch.arrive(port, &header);
        assert_eq!(answer, Err(Refusal::NoFreeNode));
    }

    let mut left = Vec::new();
    for round in 1..=98 {
        if round == 3 {
            scene.three_are_ahead(&[c, d, e]);
        }
        // A refused round doesn't count.
        let refused = scene.switch.round_into(&mut [0; 15]);
        assert_eq!(refused, Err(Refusal::ShortRoom));
        let [_, out] = scene.round();
        left.extend(out);
        let (queue, before) = ((round - 1) % 24, (round - 1) / 24);
        assert_eq!(out, Some(sent[queue][before]), "round {round}");
        if round == 3 {
            // A map that changes after the stitch doesn't matter.
            scene.switch.map(1, 3).unwrap();
        }
    }
    // Round 3, of its stitch, is its first: 98 is the 96th, 24 × (3 + 1).
    let round_of = |entry| left.iter().position(|&other| other == entry).unwrap() + 1;
    assert_eq!([c, d, e, packet].map(round_of), [26, 50, 74, 98]);
    assert_eq!(scene.round(), [None, None]);
}
