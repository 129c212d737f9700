//! Headers through the proved reader and writer, beside the model's; the long
//! run is the program `headers`.

use checks::headers::{Read, Scribe, Tally, Write, PROVED};
use model::header::Header;
use model::Shape;
use traffic::headers::spelt;
use traffic::SHAPES;
use ventorupo::{Form, Refusal};

/// Half of them read and half written, each undone by the other.
#[test]
fn reader_and_writer_agree_with_the_model() {
    let tally = PROVED.run(7, 100_000).unwrap();
    println!("{tally}");
    assert_eq!(tally.headers(), 100_000);
    assert_eq!(tally.too_rare(400), []);
}

/// None is dropped, and an odd one is read. Among few not every answer is asked
/// for, among more each.
#[test]
fn as_many_headers_as_are_asked_for() {
    for headers in [0, 1, 2, 3, 999] {
        let tally = PROVED.run(8, headers).unwrap();
        let [read, written] = [tally.read, tally.written].map(|times| times.iter().sum::<u64>());
        assert_eq!((read, written), ((headers + 1) / 2, headers / 2));
        assert_eq!(tally.headers(), headers);
    }
    assert_eq!([4999, 5000, 10_000_000].map(Tally::least), [0, 5, 10_000]);
}

/// Every edition, number of ports and number of queues near its row.
#[test]
fn every_shape_has_a_reader_and_a_writer_and_no_other() {
    let far = [255, 256, 260, 280, 65_540, 65_560, u32::MAX];
    for edition in (0..4).chain(far) {
        for ports in (0..40).chain(far) {
            for queues in (0..70).chain(far) {
                let shape = Shape {
                    edition,
                    ports,
                    queues,
                };
                let longest = Header {
                    length: 8191,
                    ..Header::default()
                };
                let (writes, reads) = if shape.in_its_rows() { (0, 6) } else { (2, 2) };
                assert_eq!(PROVED.writes(&shape, &longest), Ok(writes));
                assert_eq!(PROVED.reads(&shape, &[]), Ok(reads));
            }
        }
    }
}

/// One of a header's fields, to set it.
type Field = fn(&mut Header) -> &mut u32;

/// Each value of each narrow field, and many lengths, beside zeros and ones.
#[test]
fn every_value_of_the_narrow_fields() {
    for shape in SHAPES {
        let ids = 1 << shape.port_bits();
        let fields: [(Field, u32); 6] = [
            (|header| &mut header.destination, ids),
            (|header| &mut header.source, ids),
            (|header| &mut header.queue, 1 << shape.queue_bits()),
            (|header| &mut header.length, 8192),
            (|header| &mut header.poisoned, 2),
            (|header| &mut header.transaction, 256),
        ];
        let zeros = Header {
            length: shape.shortest(),
            ..Header::default()
        };
        let ones = Header {
            destination: ids - 1,
            source: ids - 1,
            queue: shape.queues - 1,
            length: 8191,
            poisoned: 1,
            timestamp: u32::MAX,
            credit: (1 << shape.credit_bits()) - 1,
            transaction: 255,
        };
        for (field, end) in fields {
            for mut header in [zeros, ones] {
                let step = if end > 256 { 17 } else { 1 };
                for value in (0..end).step_by(step) {
                    *field(&mut header) = value;
                    PROVED.reads(&shape, &spelt(&shape, &header, 0)).unwrap();
                    PROVED.writes(&shape, &header).unwrap();
                }
                *field(&mut header) = end;
                assert_eq!(PROVED.writes(&shape, &header), Ok(21));
            }
        }
    }
}

/// The published sizes, through the wrapper, and first bytes of a header of one
/// bit for destination, source and queue each.
#[test]
fn cards() {
    let plain = Header {
        length: 100,
        ..Header::default()
    };
    for (shape, bytes) in [
        (Shape::TEN_BYTES, 10),
        (Shape::wide(4, 24), 11),
        (Shape::wide(8, 16), 11),
        (Shape::wide(16, 32), 12),
        (Shape::wide(32, 64), 12),
    ] {
        let Shape {
            edition,
            ports,
            queues,
        } = shape;
        let form = Form {
            edition,
            ports,
            queues,
        };
        let header = ventorupo::Header {
            length: plain.length,
            ..ventorupo::Header::default()
        };
        let written = form.write(&header).unwrap();
        assert_eq!(written.len(), bytes);
        assert_eq!(written[..], spelt(&shape, &plain, 0));
        assert_eq!(form.read(&written), Ok(header));
        let short = ventorupo::Header {
            length: bytes as u32 + 1,
            ..header
        };
        assert_eq!(form.write(&short), Err(Refusal::NoFit));
        assert_eq!(form.read(&written[1..]), Err(Refusal::HeaderSize));
    }
    let two = Form {
        edition: ventorupo::WIDE,
        ports: 2,
        queues: 2,
    };
    let header = ventorupo::Header {
        destination: 1,
        queue: 1,
        length: 13,
        poisoned: 1,
        timestamp: 0x0102_0304,
        credit: 0x0506,
        transaction: 7,
        ..ventorupo::Header::default()
    };
    let written = two.write(&header).unwrap();
    assert_eq!(written[..10], [0xA0, 0x0D, 0x80, 1, 2, 3, 4, 5, 6, 7]);
}

// Would slips be found?

fn found(slip: Scribe) -> String {
    slip.run(3, 50_000).expect_err("the slip was not found")
}

/// A reader that takes a made-up queue, that reads one reserved bit alone, that
/// tests 9 before 20, that writes its fields where it refuses, and one whose
/// credit is a byte.
#[test]
fn a_slip_in_the_reader_is_found() {
    let slips: [Read; 5] = [
        |shape, bytes, fields| {
            let more = Shape {
                queues: 64.min(shape.queues + 1),
                ..*shape
            };
            let same = more.queue_bits() == shape.queue_bits() && shape.edition == 1;
            (PROVED.read)(if same { &more } else { shape }, bytes, fields)
        },
        |shape, bytes, fields| match (PROVED.read)(shape, bytes, fields) {
            // In a wide header the reserved bits end nine bytes from its end.
            20 if bytes[bytes.len() - 9] & 1 == 0 => 9,
            other => other,
        },
        |shape, bytes, fields| match (PROVED.read)(shape, bytes, fields) {
            20 if bytes[1] == 0 => 9,
            other => other,
        },
        |shape, bytes, fields| {
            let number = (PROVED.read)(shape, bytes, fields);
            if number == 19 {
                fields[2] = 0;
            }
            number
        },
        |shape, bytes, fields| {
            let number = (PROVED.read)(shape, bytes, fields);
            if number == 0 {
                fields[6] &= 0xFF;
            }
            number
        },
    ];
    for read in slips {
        println!("{}", found(Scribe { read, ..PROVED }));
    }
}

/// A writer that cuts what doesn't fit, one that clears its room first, one that
/// forgets the size, and one that takes a length one below the least.
#[test]
fn a_slip_in_the_writer_is_found() {
    let slips: [Write; 4] = [
        |shape, fields, room, size| {
            let mut cut = *fields;
            cut[7] &= 0xFF;
            (PROVED.write)(shape, &cut, room, size)
        },
        |shape, fields, room, size| {
            let number = (PROVED.write)(shape, fields, room, size);
            if number == 0 {
                room[*size as usize..].fill(0);
            }
            number
        },
        |shape, fields, room, _| (PROVED.write)(shape, fields, room, &mut 0),
        |shape, fields, room, size| {
            let mut longer = *fields;
            longer[3] += u32::from(longer[3] == 11);
            (PROVED.write)(shape, &longer, room, size)
        },
    ];
    for write in slips {
        println!("{}", found(Scribe { write, ..PROVED }));
    }
}
