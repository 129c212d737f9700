//! The constant size is the library's, of every shape and of settings out of their rows;
//! and the settings' builder sets what it says.

use ventorupo::{size, Form, Settings, Switch, TEN_BYTES, WIDE};

const SMALLEST: Settings = Settings::wide(2, 2).nodes(1);

const BOTH: [Settings; 2] = [Settings::ten_bytes(), Settings::wide(8, 16)];

/// As long as a constant says.
static ZEROS: [u8; SMALLEST.size()] = [0; SMALLEST.size()];

/// Whether it was a size.
fn agree(settings: Settings) -> bool {
    let bytes = settings.size();
    assert_eq!(
        size(&settings),
        Some(bytes).filter(|&bytes| bytes > 0),
        "{settings:?}"
    );
    bytes > 0
}

#[test]
fn the_constant_is_a_memorys_length() {
    assert_eq!(ZEROS.len(), 4510);
    assert!(Switch::setup(ZEROS, SMALLEST).is_ok());
    assert!(Switch::setup(&mut { ZEROS }[1..], SMALLEST).is_err());
}

/// With few nodes, with more and with the most, with packets and without, of both
/// editions: how many of them are sizes.
fn agreed(ports: u32, queues: u32) -> usize {
    let kinds = [(1, 0), (256, 0), (2048, 0), (1, 1), (256, 1), (2048, 1)];
    let wide = |(nodes, packets)| Settings::wide(ports, queues).nodes(nodes).packets(packets);
    let both = kinds.into_iter().map(wide);
    let both = both.flat_map(|settings| [settings, settings.edition(TEN_BYTES)]);
    both.filter(|&settings| agree(settings)).count()
}

/// Every number of ports and queues, and those beside their rows.
#[test]
fn every_shape_has_the_librarys_size() {
    let shapes = (0..=34).flat_map(|ports| (0..=66).map(move |queues| (ports, queues)));
    let sizes: usize = shapes.map(|(ports, queues)| agreed(ports, queues)).sum();
    // 31 x 63 shapes at three numbers of nodes; ten bytes at six settings.
    assert_eq!(sizes, 31 * 63 * 3 + 6);
}

/// Each setting over and beside its row, of both editions.
#[test]
fn settings_out_of_their_rows_have_none() {
    let edges = [
        0, 1, 2, 7, 8, 9, 63, 64, 65, 128, 256, 511, 512, 513, 2047, 2048, 2049,
    ];
    let numbers = edges.into_iter().chain([65_535, 65_536, 1 << 31, u32::MAX]);
    let mut none = 0;
    for (number, settings) in numbers.flat_map(|n| BOTH.map(|settings| (n, settings))) {
        let changed = [
            settings.nodes(number),
            settings.beat(number),
            settings.slots(number),
            settings.credit(number),
            settings.ports(number),
            settings.queues(number),
            settings.edition(number),
            settings.packets(number),
        ];
        none += changed.into_iter().filter(|&s| !agree(s)).count();
    }
    assert!(none > 150, "{none}");
}

/// Each by a number of its own, in the order of the C interface.
#[test]
fn every_setting_is_set_by_its_name() {
    let settings = Settings::wide(5, 6).edition(7).packets(8);
    let settings = settings.nodes(1).beat(2).slots(3).credit(4);
    assert_eq!(settings.numbers(), [1, 2, 3, 4, 5, 6, 7, 8]);
    let other = Settings::ten_bytes().ports(9).queues(10);
    assert_eq!(other.numbers(), [256, 64, 8, 5000, 9, 10, 0, 0]);
    let of = |form| Settings::of(form).form();
    assert_eq!(of(Form::wide(3, 4)), Form::wide(3, 4));
    assert_eq!(Settings::wide(3, 4).numbers()[4..], [3, 4, WIDE, 0]);
    assert_eq!(
        Settings::ten_bytes().with_packets().numbers()[4..],
        [4, 24, TEN_BYTES, 1]
    );
}
