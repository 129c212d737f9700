//! The header's bit table with its worked example, the widths of wide headers, and the
//! table of sizes.

use model::Shape;
use ventorupo::{size, Form, Header, Settings};

use crate::page::{table, words, GUIDE};

const HEADS: [&str; 5] = ["field", "where", "bits", "example", "its bits"];

/// The bits that a cell names, each by its byte and its place in it, the highest first:
/// `byte 0, bits 3 to 0; byte 1, bit 7`, or whole bytes, `bytes 3 to 6`.
fn places(cell: &str) -> Vec<(usize, u32)> {
    let numbers = |part: &str| {
        let digits = part.split(|c: char| !c.is_ascii_digit());
        let read = digits.filter_map(|digits| digits.parse::<usize>().ok());
        read.collect::<Vec<_>>()
    };
    let of_part = |part: &str| match (part.contains("bit"), &numbers(part)[..]) {
        (true, &[byte, bit]) => vec![(byte, bit as u32)],
        (true, &[byte, high, low]) => (low..=high).rev().map(|bit| (byte, bit as u32)).collect(),
        (false, &[byte]) => (0..8).rev().map(|bit| (byte, bit)).collect(),
        (false, &[first, last]) => (first..=last)
            .flat_map(|byte| (0..8).rev().map(move |bit| (byte, bit)))
            .collect(),
        (_, numbers) => panic!("{part}: {numbers:?}"),
    };
    cell.split("; ").flat_map(of_part).collect()
}

fn number(cell: &str) -> u32 {
    cell.replace(',', "").parse().expect(cell)
}

/// A row's bits, put where it says.
fn put(row: &[&str], bytes: &mut [u8; 10]) {
    let (places, bits) = (places(row[1]), row[4].replace(' ', ""));
    assert_eq!(places.len().to_string(), row[2], "{row:?}");
    assert_eq!(places.len(), bits.len(), "{row:?}");
    assert_eq!(u32::from_str_radix(&bits, 2), Ok(number(row[3])), "{row:?}");
    for ((byte, place), bit) in places.into_iter().zip(bits.chars()) {
        bytes[byte] |= u8::from(bit == '1') << place;
    }
}

/// What the table's example is, by the place of each bit, is what the page shows and
/// what the proved writer makes of the same numbers.
#[test]
fn the_worked_example_is_the_writers() {
    let words = words();
    let rows = table(&words, &HEADS).rows;
    let mut bytes = [0; 10];
    rows.iter().for_each(|row| put(row, &mut bytes));
    let shown = bytes.map(|byte| format!("{byte:02X}")).join(" ");
    assert!(GUIDE.contains(&format!("`{shown}`")), "{shown}");
    let of = |name: &str| {
        let row = rows.iter().find(|row| row[0] == name).expect(name);
        number(row[3])
    };
    let fields = [
        "destination",
        "source",
        "queue",
        "length",
        "poisoned",
        "timestamp",
        "credit",
        "transaction",
    ];
    let header = Header::from_numbers(fields.map(of));
    assert_eq!(Form::TEN_BYTES.write(&header).as_deref(), Ok(&bytes[..]));
    assert_eq!((rows.len(), of("reserved")), (fields.len() + 2, 0));
}

#[test]
fn wide_headers_have_these_widths() {
    let heads = [
        "ports, queues",
        "destination",
        "source",
        "queue",
        "length",
        "poisoned",
        "reserved",
        "timestamp",
        "credit",
        "transaction",
        "checksum",
        "bytes",
    ];
    let words = words();
    let rows = table(&words, &heads).rows;
    assert!(rows.len() >= 5);
    for row in rows {
        let (ports, queues) = row[0].split_once(", ").expect(row[0]);
        let shape = match queues.strip_suffix(" (ten bytes)") {
            Some(_) => Shape::TEN_BYTES,
            None => Shape::wide(number(ports), number(queues)),
        };
        let (port, queue) = (shape.port_bits(), shape.queue_bits());
        let widths = [
            port,
            port,
            queue,
            13,
            1,
            shape.reserved_bits(),
            32,
            shape.credit_bits(),
            8,
            8,
        ];
        let bytes = widths.iter().sum::<u32>() / 8;
        let told: Vec<u32> = row[1..].iter().map(|cell| number(cell)).collect();
        assert_eq!(told, [&widths[..], &[bytes]].concat(), "{row:?}");
        let Shape {
            edition,
            ports,
            queues,
        } = shape;
        let form = Form {
            edition,
            ports,
            queues,
        };
        assert_eq!(form.size(), Some(bytes as usize), "{row:?}");
    }
}

#[test]
fn states_have_these_sizes() {
    let words = words();
    let table = table(&words, &["ports, queues", "N = 1", "N = 256", "N = 2,048"]);
    assert!(table.rows.len() >= 4);
    for row in table.rows {
        let (ports, queues) = row[0].split_once(", ").expect(row[0]);
        let wide = |nodes| Settings::wide(number(ports), number(queues)).nodes(nodes);
        let sizes = [1, 256, 2048].map(|nodes| size(&wide(nodes)));
        let told = [1, 2, 3].map(|cell: usize| Some(number(row[cell]) as usize));
        assert_eq!(told, sizes, "{row:?}");
    }
}
