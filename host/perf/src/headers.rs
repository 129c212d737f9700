//! Headers, read and written: beside the model's reader and writer.

use model::header::{read, write, Header};
use model::Shape;
use traffic::headers::right_fields;
use traffic::Random;
use ventorupo::calls;

use crate::{timed, SAMPLES};

/// So many headers are taken in a row.
const HEADERS: usize = 500;

/// The edition of ten bytes, and the papers' wide ones.
const FORMS: [Shape; 5] = [
    Shape::TEN_BYTES,
    Shape::wide(4, 24),
    Shape::wide(8, 16),
    Shape::wide(16, 32),
    Shape::wide(32, 64),
];

/// Headers of a form: what they say, and their bytes.
struct Batch {
    shape: Shape,
    fields: Vec<Header>,
    bytes: Vec<Vec<u8>>,
}

/// As the C interface has them.
fn numbers(h: &Header) -> [u32; 8] {
    [
        h.destination,
        h.source,
        h.queue,
        h.length,
        h.poisoned,
        h.timestamp,
        h.credit,
        h.transaction,
    ]
}

impl Batch {
    fn of(shape: Shape) -> Batch {
        let mut random = Random::new(1);
        let fields: Vec<Header> = (0..HEADERS)
            .map(|_| right_fields(&mut random, &shape))
            .collect();
        let bytes = fields
            .iter()
            .map(|header| write(&shape, header).expect("fields that fit"))
            .collect();
        Batch {
            shape,
            fields,
            bytes,
        }
    }

    /// The four ways to go through them: the library's reader, the model's, the
    /// library's writer, the model's. Each answers a sum of what it met.
    fn pass(&self, way: usize) -> u64 {
        match way {
            0 => self.bytes.iter().map(|bytes| self.read(bytes)).sum(),
            1 => self.bytes.iter().map(|bytes| self.model_reads(bytes)).sum(),
            2 => self.fields.iter().map(|header| self.write(header)).sum(),
            _ => self
                .fields
                .iter()
                .map(|header| self.model_writes(header))
                .sum(),
        }
    }

    fn read(&self, bytes: &[u8]) -> u64 {
        let Shape {
            edition,
            ports,
            queues,
        } = self.shape;
        let mut fields = [0; 8];
        assert_eq!(
            calls::read_header(edition, ports, queues, bytes, &mut fields),
            0
        );
        all(&fields)
    }

    fn model_reads(&self, bytes: &[u8]) -> u64 {
        all(&numbers(&read(&self.shape, bytes).expect("a header")))
    }

    fn write(&self, header: &Header) -> u64 {
        let Shape {
            edition,
            ports,
            queues,
        } = self.shape;
        let (mut bytes, mut size) = ([0; 12], 0);
        let fields = numbers(header);
        assert_eq!(
            calls::write_header(edition, ports, queues, &fields, &mut bytes, &mut size),
            0
        );
        last(&bytes[..size as usize])
    }

    fn model_writes(&self, header: &Header) -> u64 {
        last(&write(&self.shape, header).expect("fields that fit"))
    }

    /// Nanoseconds a header for each of the four, at its best. They take turns,
    /// so that all meet the same weather.
    fn each(&self) -> [f64; 4] {
        let mut least = [f64::INFINITY; 4];
        for _ in 0..SAMPLES {
            let mut sums = [0; 4];
            for (way, (least, sum)) in least.iter_mut().zip(&mut sums).enumerate() {
                let spent = timed(|| *sum = self.pass(way));
                *least = least.min(spent / HEADERS as f64);
            }
            // The same work, and its answers are used.
            assert_eq!((sums[0], sums[2]), (sums[1], sums[3]));
        }
        least
    }
}

fn all(fields: &[u32; 8]) -> u64 {
    fields.iter().map(|&field| u64::from(field)).sum()
}

/// The checksum, which all bytes have gone into, and the size.
fn last(bytes: &[u8]) -> u64 {
    let checksum = bytes.last().copied().map_or(0, u64::from);
    checksum << 8 | bytes.len() as u64
}

pub fn each_form() {
    println!("### Headers read and written, ns a header\n");
    println!("| ports | queues | bytes | reader | model's | ratio | writer | model's | ratio |");
    println!("|---|---|---|---|---|---|---|---|---|");
    for shape in FORMS {
        let [read, model_reads, write, model_writes] = Batch::of(shape).each();
        println!(
            "| {} | {} | {} | {read:.1} | {model_reads:.1} | {:.2} | {write:.1} | {model_writes:.1} | {:.2} |",
            shape.ports,
            shape.queues,
            shape.header_bytes(),
            read / model_reads,
            write / model_writes
        );
    }
    println!();
}
