//! The C interface's calls, with slices for pointers and lengths: each but the
//! size and the finding answers 0 or a refusal's number, and a refusal changes
//! neither memory nor room, but that an arrival refused 7 or 8 sets its port's
//! mark, one byte of the memory, if the port has none. Packet memories are lent
//! memory too.
//!
//! All of this crate's unsafe code is here. C asks that a pointer is valid for
//! its length, that it is aligned, and that lent memories do not overlap. A
//! reference is valid and aligned for its type, a slice's pointer is valid for
//! its length (also for 0), and two references of which one is `&mut` never
//! overlap. No call keeps a pointer after it has answered.

mod c {
    extern "C" {
        pub fn vr_size(settings: *const u32) -> u64;
        pub fn vr_setup(mem: *mut u8, len: usize, settings: *const u32) -> u32;
        pub fn vr_arrive(
            mem: *mut u8,
            len: usize,
            port: u32,
            header: *const u8,
            header_len: usize,
            entry: *mut u16,
        ) -> u32;
        pub fn vr_arrive_packet(
            mem: *mut u8,
            len: usize,
            packets: *mut u8,
            packets_len: usize,
            port: u32,
            packet: *const u8,
            packet_len: usize,
            entry: *mut u16,
        ) -> u32;
        pub fn vr_stitch(mem: *mut u8, len: usize, port: u32, record: *mut u8) -> u32;
        pub fn vr_prefetch(mem: *mut u8, len: usize, port: u32, queue: u32, entry: *mut u16)
            -> u32;
        pub fn vr_credit(mem: *mut u8, len: usize, port: u32, queue: u32, amount: u32) -> u32;
        pub fn vr_map(mem: *mut u8, len: usize, id: u32, port: u32) -> u32;
        pub fn vr_turn(mem: *mut u8, len: usize, port: u32, sent: *mut u8) -> u32;
        pub fn vr_round(mem: *mut u8, len: usize, turns: *mut u8, turns_len: usize) -> u32;
        pub fn vr_run(
            mem: *mut u8,
            len: usize,
            fields: *const u8,
            fields_len: usize,
            answers: *mut u8,
            answers_len: usize,
            count: *mut u64,
            why: *mut u32,
        ) -> u32;
        pub fn vr_ready(
            mem: *const u8,
            len: usize,
            port: u32,
            word: *mut u64,
            count: *mut u32,
        ) -> u32;
        pub fn vr_where(mem: *const u8, len: usize, entry: u32, place: *mut u8) -> u32;
        pub fn vr_show(
            mem: *const u8,
            len: usize,
            p0: *const u8,
            len0: usize,
            p1: *const u8,
            len1: usize,
            p2: *const u8,
            len2: usize,
            p3: *const u8,
            len3: usize,
            port: u32,
            queue: u32,
            owner: *mut u32,
            at: *mut u64,
            length: *mut u32,
        ) -> u32;
        pub fn vr_clear(mem: *mut u8, len: usize, port: u32) -> u32;
        pub fn vr_report(mem: *const u8, len: usize, port: u32, mark: *mut u32) -> u32;
        pub fn vr_timed_turn(mem: *mut u8, len: usize, port: u32, now: u32, sent: *mut u8) -> u32;
        pub fn vr_bucket(
            mem: *const u8,
            len: usize,
            port: u32,
            bucket: u32,
            count: *mut u32,
        ) -> u32;
        pub fn vr_audit(mem: *const u8, len: usize, places: *mut u8, places_len: usize) -> u32;
        pub fn vr_find(mem: *const u8, len: usize, rule: *mut u32, item: *mut u64);
        pub fn vr_repair(mem: *mut u8, len: usize) -> u32;
        pub fn vr_read_header(
            edition: u32,
            ports: u32,
            queues: u32,
            header: *const u8,
            header_len: usize,
            fields: *mut u32,
        ) -> u32;
        pub fn vr_write_header(
            edition: u32,
            ports: u32,
            queues: u32,
            fields: *const u32,
            header: *mut u8,
            size: *mut u32,
        ) -> u32;
    }
}

/// The bytes that a state of these settings takes; 0 if there is none. The settings are
/// nodes, beat, slots, credit, ports, queues, edition, packets.
///
/// ```
/// use ventorupo::calls;
///
/// assert_eq!(calls::size(&[1, 64, 1, 16, 4, 24, 0, 0]), 6668);
/// ```
pub fn size(settings: &[u32; 8]) -> u64 {
    // Sound: the eight aligned numbers that C reads.
    unsafe { c::vr_size(settings.as_ptr()) }
}

/// The settings are in the order of [`size`].
///
/// ```
/// use ventorupo::calls;
///
/// let mut memory = [0; 6668];
/// assert_eq!(calls::setup(&mut memory, &[1, 64, 1, 16, 4, 24, 0, 0]), 0);
/// assert_eq!(calls::setup(&mut memory[1..], &[1, 64, 1, 16, 4, 24, 0, 0]), 1);
/// ```
pub fn setup(memory: &mut [u8], settings: &[u32; 8]) -> u32 {
    // Sound: the slice with its length, and eight aligned numbers apart from it.
    unsafe { c::vr_setup(memory.as_mut_ptr(), memory.len(), settings.as_ptr()) }
}

/// A header arrives at a port; the entry id is written.
///
/// ```
/// use ventorupo::calls;
///
/// let (mut memory, mut entry) = ([0; 6668], 9);
/// assert_eq!(calls::arrive(&mut memory, 0, &[0; 10], &mut entry), 3);
/// assert_eq!(entry, 9);
/// ```
pub fn arrive(memory: &mut [u8], port: u32, header: &[u8], entry: &mut u16) -> u32 {
    // Sound: two slices with their lengths, and an aligned u16, all apart.
    unsafe {
        c::vr_arrive(
            memory.as_mut_ptr(),
            memory.len(),
            port,
            header.as_ptr(),
            header.len(),
            entry,
        )
    }
}

/// A whole packet arrives at a port, whose packet memory is lent.
///
/// ```
/// use ventorupo::calls;
///
/// let (mut memory, mut entry) = ([0; 6668], 9);
/// assert_eq!(calls::arrive_packet(&mut memory, &mut [], 0, &[0; 12], &mut entry), 3);
/// ```
pub fn arrive_packet(
    memory: &mut [u8],
    packets: &mut [u8],
    port: u32,
    packet: &[u8],
    entry: &mut u16,
) -> u32 {
    // Sound: three slices with their lengths, and an aligned u16, all apart.
    unsafe {
        c::vr_arrive_packet(
            memory.as_mut_ptr(),
            memory.len(),
            packets.as_mut_ptr(),
            packets.len(),
            port,
            packet.as_ptr(),
            packet.len(),
            entry,
        )
    }
}

/// A stitch; the record's ten bytes are written.
///
/// ```
/// use ventorupo::calls;
///
/// assert_eq!(calls::stitch(&mut [0; 6668], 0, &mut [0; 10]), 3);
/// ```
pub fn stitch(memory: &mut [u8], port: u32, record: &mut [u8; 10]) -> u32 {
    // Sound: the slice with its length; the room has the ten bytes C asks for.
    unsafe { c::vr_stitch(memory.as_mut_ptr(), memory.len(), port, record.as_mut_ptr()) }
}

/// A prefetch; the entry id is written.
///
/// ```
/// use ventorupo::calls;
///
/// assert_eq!(calls::prefetch(&mut [0; 6668], 0, 0, &mut 0), 3);
/// ```
pub fn prefetch(memory: &mut [u8], port: u32, queue: u32, entry: &mut u16) -> u32 {
    // Sound: the slice with its length, and an aligned u16 apart from it.
    unsafe { c::vr_prefetch(memory.as_mut_ptr(), memory.len(), port, queue, entry) }
}

/// Adds to a queue's outward credit.
///
/// ```
/// use ventorupo::calls;
///
/// assert_eq!(calls::credit(&mut [0; 6668], 0, 1, 5), 3);
/// ```
pub fn credit(memory: &mut [u8], port: u32, queue: u32, amount: u32) -> u32 {
    // Sound: the slice's own pointer and length.
    unsafe { c::vr_credit(memory.as_mut_ptr(), memory.len(), port, queue, amount) }
}

/// Maps a destination id to a port.
///
/// ```
/// use ventorupo::calls;
///
/// assert_eq!(calls::map(&mut [0; 6668], 5, 2), 3);
/// ```
pub fn map(memory: &mut [u8], id: u32, port: u32) -> u32 {
    // Sound: the slice's own pointer and length.
    unsafe { c::vr_map(memory.as_mut_ptr(), memory.len(), id, port) }
}

/// A turn; 16 bytes are written, of an idle turn the first alone.
///
/// ```
/// use ventorupo::calls;
///
/// let (mut memory, mut sent) = ([0; 6668], [9; 16]);
/// calls::setup(&mut memory, &[1, 64, 1, 16, 4, 24, 0, 0]);
/// assert_eq!(calls::turn(&mut memory, 0, &mut sent), 0);
/// assert_eq!(sent[..2], [0, 9]);
/// ```
pub fn turn(memory: &mut [u8], port: u32, sent: &mut [u8; 16]) -> u32 {
    // Sound: the slice with its length; the room has the 16 bytes C asks for.
    unsafe { c::vr_turn(memory.as_mut_ptr(), memory.len(), port, sent.as_mut_ptr()) }
}

/// A round; four bytes are written for each port's turn.
///
/// ```
/// use ventorupo::calls;
///
/// let mut memory = [0; 6668];
/// calls::setup(&mut memory, &[1, 64, 1, 16, 4, 24, 0, 0]);
/// assert_eq!(calls::round(&mut memory, &mut [0; 16]), 0);
/// assert_eq!(calls::round(&mut memory, &mut [0; 15]), 27);
/// ```
pub fn round(memory: &mut [u8], turns: &mut [u8]) -> u32 {
    // Sound: two slices with their lengths, apart.
    unsafe {
        c::vr_round(
            memory.as_mut_ptr(),
            memory.len(),
            turns.as_mut_ptr(),
            turns.len(),
        )
    }
}

/// A run of fields; four bytes are written for each. Refused 3 alone, and then neither
/// number is written; what the fields' calls are refused stands in their answers.
///
/// ```
/// use ventorupo::calls;
///
/// let (mut memory, mut room, mut count, mut why) = ([0; 6668], [0; 4], 0, 9);
/// calls::setup(&mut memory, &[1, 64, 1, 16, 4, 24, 0, 0]);
/// assert_eq!(calls::run(&mut memory, &[5, 0, 1, 3], &mut room, &mut count, &mut why), 0);
/// assert_eq!((room, count, why), ([0, 1, 0, 0], 1, 0));
/// ```
pub fn run(
    memory: &mut [u8],
    fields: &[u8],
    answers: &mut [u8],
    count: &mut u64,
    why: &mut u32,
) -> u32 {
    // Sound: three slices with their lengths, and two aligned rooms, all apart.
    unsafe {
        c::vr_run(
            memory.as_mut_ptr(),
            memory.len(),
            fields.as_ptr(),
            fields.len(),
            answers.as_mut_ptr(),
            answers.len(),
            count,
            why,
        )
    }
}

/// The port's ready word, and its number of ones.
///
/// ```
/// use ventorupo::calls;
///
/// assert_eq!(calls::ready(&[0; 6668], 0, &mut 0, &mut 0), 3);
/// ```
pub fn ready(memory: &[u8], port: u32, word: &mut u64, count: &mut u32) -> u32 {
    // Sound: the memory is read only; two aligned rooms, apart from it.
    unsafe { c::vr_ready(memory.as_ptr(), memory.len(), port, word, count) }
}

/// Where a node stands, in eight bytes.
///
/// ```
/// use ventorupo::calls;
///
/// assert_eq!(calls::place_of(&[0; 6668], 0, &mut [0; 8]), 3);
/// ```
pub fn place_of(memory: &[u8], entry: u32, place: &mut [u8; 8]) -> u32 {
    // Sound: the memory is read only; the room has the 8 bytes C asks for.
    unsafe { c::vr_where(memory.as_ptr(), memory.len(), entry, place.as_mut_ptr()) }
}

/// The oldest packet in a queue's slots. The packet memories are those of ports 0 to 3;
/// what is shown is so many bytes of the owner's, from `at` on.
///
/// ```
/// use ventorupo::calls;
///
/// let (mut owner, mut at, mut length) = (0, 0, 0);
/// let number = calls::show(&[0; 6668], [&[]; 4], 0, 0, &mut owner, &mut at, &mut length);
/// assert_eq!(number, 3);
/// ```
pub fn show(
    memory: &[u8],
    packets: [&[u8]; 4],
    port: u32,
    queue: u32,
    owner: &mut u32,
    at: &mut u64,
    length: &mut u32,
) -> u32 {
    let [p0, p1, p2, p3] = packets;
    // Sound: memory and packets are read only, slices with their lengths; three aligned
    // rooms, apart from them.
    unsafe {
        c::vr_show(
            memory.as_ptr(),
            memory.len(),
            p0.as_ptr(),
            p0.len(),
            p1.as_ptr(),
            p1.len(),
            p2.as_ptr(),
            p2.len(),
            p3.as_ptr(),
            p3.len(),
            port,
            queue,
            owner,
            at,
            length,
        )
    }
}

/// Lifts a port's mark.
///
/// ```
/// use ventorupo::calls;
///
/// assert_eq!(calls::clear(&mut [0; 6668], 0), 3);
/// ```
pub fn clear(memory: &mut [u8], port: u32) -> u32 {
    // Sound: the slice's own pointer and length.
    unsafe { c::vr_clear(memory.as_mut_ptr(), memory.len(), port) }
}

/// A port's mark, or 0.
///
/// ```
/// use ventorupo::calls;
///
/// assert_eq!(calls::report(&[0; 6668], 0, &mut 0), 3);
/// ```
pub fn report(memory: &[u8], port: u32, mark: &mut u32) -> u32 {
    // Sound: the memory is read only; an aligned room, apart from it.
    unsafe { c::vr_report(memory.as_ptr(), memory.len(), port, mark) }
}

/// A turn that is given the time.
///
/// ```
/// use ventorupo::calls;
///
/// assert_eq!(calls::timed_turn(&mut [0; 6668], 0, 77, &mut [0; 16]), 3);
/// ```
pub fn timed_turn(memory: &mut [u8], port: u32, now: u32, sent: &mut [u8; 16]) -> u32 {
    // Sound: the slice with its length; the room has the 16 bytes C asks for.
    unsafe {
        c::vr_timed_turn(
            memory.as_mut_ptr(),
            memory.len(),
            port,
            now,
            sent.as_mut_ptr(),
        )
    }
}

/// How many waits a port's bucket has counted.
///
/// ```
/// use ventorupo::calls;
///
/// assert_eq!(calls::bucket(&[0; 6668], 0, 32, &mut 0), 3);
/// ```
pub fn bucket(memory: &[u8], port: u32, bucket: u32, count: &mut u32) -> u32 {
    // Sound: the memory is read only; an aligned room, apart from it.
    unsafe { c::vr_bucket(memory.as_ptr(), memory.len(), port, bucket, count) }
}

/// Every node's place, eight bytes each.
///
/// ```
/// use ventorupo::calls;
///
/// assert_eq!(calls::audit(&[0; 6668], &mut []), 3);
/// ```
pub fn audit(memory: &[u8], places: &mut [u8]) -> u32 {
    // Sound: the memory is read only; two slices with their lengths, apart.
    unsafe {
        c::vr_audit(
            memory.as_ptr(),
            memory.len(),
            places.as_mut_ptr(),
            places.len(),
        )
    }
}

/// The first rule that is broken, and the first item that shows it; 0 and 0 of a state.
/// Never refused: both numbers are written always.
///
/// ```
/// use ventorupo::calls;
///
/// let (mut rule, mut item) = (9, 9);
/// calls::find(&[0; 6668], &mut rule, &mut item);
/// assert_eq!((rule, item), (1, 0));
/// ```
pub fn find(memory: &[u8], rule: &mut u32, item: &mut u64) {
    // Sound: the memory is read only; two aligned rooms, apart from it.
    unsafe { c::vr_find(memory.as_ptr(), memory.len(), rule, item) }
}

/// The starting ledger, with the settings and the map that are there.
///
/// ```
/// use ventorupo::calls;
///
/// assert_eq!(calls::repair(&mut [0; 6668]), 3);
/// ```
pub fn repair(memory: &mut [u8]) -> u32 {
    // Sound: the slice's own pointer and length.
    unsafe { c::vr_repair(memory.as_mut_ptr(), memory.len()) }
}

/// What a header says. The fields are destination, source, queue, length, poisoned,
/// timestamp, credit, transaction.
///
/// ```
/// use ventorupo::calls;
///
/// let (header, mut fields) = ([0, 0, 0x30, 0, 0, 0, 0, 0, 0, 0x72], [9; 8]);
/// assert_eq!(calls::read_header(0, 4, 24, &header, &mut fields), 0);
/// assert_eq!(fields, [0, 0, 0, 12, 0, 0, 0, 0]);
/// ```
pub fn read_header(
    edition: u32,
    ports: u32,
    queues: u32,
    header: &[u8],
    fields: &mut [u32; 8],
) -> u32 {
    // Sound: the slice with its length, and eight aligned numbers apart from it.
    unsafe {
        c::vr_read_header(
            edition,
            ports,
            queues,
            header.as_ptr(),
            header.len(),
            fields.as_mut_ptr(),
        )
    }
}

/// The header that says this. The fields are in the order of [`read_header`]; the
/// header's own bytes are written, as many as the size says then.
///
/// ```
/// use ventorupo::calls;
///
/// let (mut header, mut size) = ([0; 12], 0);
/// let fields = [0, 0, 0, 12, 0, 0, 0, 0];
/// assert_eq!(calls::write_header(0, 4, 24, &fields, &mut header, &mut size), 0);
/// assert_eq!((size, header[9]), (10, 0x72));
/// ```
pub fn write_header(
    edition: u32,
    ports: u32,
    queues: u32,
    fields: &[u32; 8],
    header: &mut [u8; 12],
    size: &mut u32,
) -> u32 {
    // Sound: eight aligned numbers, the twelve bytes C asks for and an aligned u32, all apart.
    unsafe {
        c::vr_write_header(
            edition,
            ports,
            queues,
            fields.as_ptr(),
            header.as_mut_ptr(),
            size,
        )
    }
}
