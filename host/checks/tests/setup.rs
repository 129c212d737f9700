//! The image that a setup writes is compared with the model's, byte by byte: a library
//! whose setup differs in any one is found.

use checks::run::Pair;
use checks::tables::Tables;
use checks::{library, wrapper};
use model::{size, Call, Reply, Settings, Shape};
use traffic::SHAPES;

/// What is told of a setup after which this byte has other bits.
fn told(settings: Settings, seed: u64, at: usize, bits: u8) -> Option<String> {
    let slip = |memory: &mut [u8], call: &Call| {
        let reply = library::call(memory, call)?;
        memory[at] ^= bits;
        Ok(reply)
    };
    let mut pair = Pair::new(&slip, seed, size(&settings), 1000);
    pair.call(&Call::Setup(settings)).err()
}

fn is_found(settings: Settings, seed: u64, at: usize, bits: u8) {
    let told = told(settings, seed, at, bits).unwrap_or_default();
    let wanted = format!("after setup byte {at} was ");
    assert!(told.starts_with(&wanted), "{settings:?}, byte {at}: {told}");
}

/// With wide headers, of ten bytes, and with packets.
fn settings(nodes: u32) -> Vec<Settings> {
    let of = |&shape: &Shape| Settings::of(shape, nodes, 128, 3, 0x1234);
    let mut settings: Vec<Settings> = SHAPES.iter().map(of).collect();
    settings.push(of(&Shape::TEN_BYTES).with_packets());
    settings
}

/// Its ends and its middle.
fn of_each_table(settings: &Settings) -> Vec<usize> {
    let tables = Tables::of(settings);
    let mut starts: Vec<usize> = tables.in_order().map(|table| table.start).to_vec();
    starts.push(tables.size);
    let bytes = |ends: &[usize]| [ends[0], (ends[0] + ends[1]) / 2, ends[1] - 1];
    starts.windows(2).flat_map(bytes).collect()
}

/// Over zeros and over stale bytes, by the plain calls and by the wrapper.
#[test]
fn a_right_setup_is_taken() {
    for settings in [1, 3, 256].into_iter().flat_map(settings) {
        for seed in 0..8 {
            let mut pair = Pair::new(&library::call, seed, size(&settings) + 5, 1);
            assert_eq!(pair.call(&Call::Setup(settings)), Ok(Reply::Done));
            let mut pair = Pair::new(&wrapper::call, seed, size(&settings) + 5, 1);
            assert_eq!(pair.call(&Call::Setup(settings)), Ok(Reply::Done));
        }
    }
}

#[test]
fn a_slip_in_any_table_of_any_shape_is_found() {
    for settings in [1, 3].into_iter().flat_map(settings) {
        for (seed, at) in (0..).zip(of_each_table(&settings)) {
            is_found(settings, seed, at, 1);
            is_found(settings, seed, at, 0x80);
        }
    }
}

#[test]
fn a_slip_in_any_byte_is_found() {
    let smallest = Settings::wide(2, 2, 2, 64, 1, 9);
    for settings in [smallest, Settings::ten_bytes(1, 64, 1, 9)] {
        for at in 0..size(&settings) {
            is_found(settings, at as u64, at, 1 << (at % 8));
        }
    }
}
