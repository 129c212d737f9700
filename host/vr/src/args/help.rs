//! What `vr help` says, and `--help` behind a command.

/// What help is asked for.
#[derive(Debug, Clone, Copy, PartialEq, Eq)]
pub enum Topic {
    All,
    Explain,
    Dump,
    Repair,
    Waits,
    Replay,
    Simulate,
    Header,
    Make,
    Show,
}

const TOP: &str = "\
vr: images of a switch's state, explained, shown, drawn and repaired; streams of calls replayed; headers
made and shown; a night when a stage box lied
";

const EXPLAIN: &str = "    \
    vr explain IMAGE         says that it is a sound state, or the first rule broken and what shows it
";

const DUMP: &str = "    \
    vr dump IMAGE [--packets P0 P1 P2 P3] [--json]
                             shows settings, map, credits, halted ports, waits, every list with its packets;
                             with --packets, the first bytes of each packet too
";

const REPAIR: &str = "    \
    vr repair IMAGE -o NEW   writes NEW: IMAGE with the starting state of its settings, the map kept
";

const WAITS: &str = "    \
    vr waits IMAGE [--svg NEW]
                             draws how long each port's packets waited, in bars; with --svg, writes the
                             drawing to NEW too, as an SVG picture
";

const REPLAY: &str = "    \
    vr replay STREAM [--image IMAGE] [--dump] [-o NEW]
                             carries out a stream of calls and says how many were done and refused; with
                             --dump, shows what stands where then; with -o, writes the image to NEW
";

const SIMULATE: &str = "    \
    vr simulate [--ports N] [--queues N] [--nodes N] [--liar PORT] [--seed N] [--ticks N]
                [--from TICK] [--to TICK] [--clear TICK] [--svg NEW] [--json]
                             drives a switch through a night when a stage box lied, and shows its pools,
                             halts, departures and waits; with --svg, writes a picture of it to NEW too
";

const MAKE: &str = "    \
    vr header make [FORM] --destination N --source N --queue N --length N [--poisoned N]
                   [--timestamp N] [--credit N] [--transaction N] [-o NEW]
                             says the header's bytes in hexadecimal, with 0 for fields that are not
                             named; with -o, writes them to NEW too
";

const SHOW: &str = "    \
    vr header show [FORM] HEADER [--json]
                             shows the fields of a header, and why it is none if it is none
";

const OTHERS: &str = "    \
    vr help                  says this; --help behind a command says its part
    vr --version             says the version
";

const IMAGES: &str = "\
IMAGE is a file of a state's bytes (docs/LAYOUT.md), and is never written. A name that starts with - is
written ./-name.
";

const MEMORIES: &str = "\
P0 to P3 are files of the packet memories of ports 0 to 3, of a state that keeps packets: 8192 bytes for
each node of a port, and no other size. They are never written.
";

const REPAIRS: &str = "\
A repair drops every packet, all outward credit and every port's mark and waits, also of a sound state;
bytes of IMAGE past the state go to NEW as they are. It is refused where a setting is not in its row or the
image is too short, and then NEW is not made.
";

const DRAWN: &str = "\
A bar is of a bucket, in which a port's timed turns count the packets that they send by their wait: the time
of the turn less the packet's timestamp, on 32 bits, so in ticks of the headers' clock; how long a tick is,
IMAGE does not say. A bucket that counts anything has a bar, however small its share; one that has stopped
at 4294967295 stands for as many or more.
";

const STREAMS: &str = "\
STREAM is a file of the bench program's fields, or - for standard input: tag (1 byte), length of the value
(2), value. Tags: 1 setup, 2 arrive, 3 stitch, 4 prefetch, 5 turn, 6 credit, 7 map. It starts with a setup,
or from IMAGE, of any edition, in which arrivals may have headers of its size; one that keeps packets
refuses all of them 24. A setup further on sets up anew; before there is a state all else is refused 3. A
bad field (another tag, a wrong length, cut off) ends the replay; what was done before it counts, and is
shown and written.
";

const NIGHTS: &str = "\
PORT is the port whose stage box lies, 1 if none is named, from one TICK to another; a TICK is 1 to the
ticks of the night, 120 if not named (10 to 999). At first it floods its port with sound headers beyond
its credit and says lengths, queues and reserved bits that cannot be; after a third of its time wrong
checksums and other ports' sources too, which halt its port. An operator clears the port once while it
lies and once afterwards, or once in the TICK behind --clear. The other boxes are honest. Without --ports
and --queues it is a switch of 4 ports and 24 queues with ten-byte headers, else one with wide headers of
2 to 32 ports and 2 to 64 queues; 32 nodes a port. What the boxes send follows from the seed, 1 if none is
named; every number that is shown is an answer of the proved library, or a count of its answers: free
nodes are counted in an audit after each tick's arrivals. The same night is driven once more without the
headers that were refused at PORT, and all other answers are compared; if one differs, the status is 1.
";

const NEW: &str = "\
NEW must not be there yet: vr overwrites nothing.
";

const HEADERS: &str = "\
HEADER is hexadecimal digits, in one word or several, or a file of a header's bytes or of such digits, or -
for standard input. 0x may stand in front of bytes, and blanks or : , - between them. A file whose name is
such digits is written ./name.
";

const FORMS: &str = "\
FORM is --ports N --queues N of a switch with wide headers; without it headers have ten bytes, for 4 ports
and 24 queues. (--edition ten or --edition wide says it outright.)
";

const NUMBERS: &str = "\
A number N is decimal or, behind 0x, hexadecimal; --name=N is --name N.
";

const STATUS: &str = "\
Exit status: 0 a sound state, repaired, replayed to the end, simulated, made or shown; 1 a broken state, a
bad field, refused, or nights that differ; 2 it could not be done (a wrong command, a file that cannot be
read or written), with the reason on standard error.
";

impl Topic {
    /// The help for it: paragraphs, the first of which are the commands.
    pub fn text(self) -> String {
        let (commands, notes) = self.parts();
        let mut paragraphs = vec![commands.concat()];
        paragraphs.extend(notes.iter().map(|note| note.to_string()));
        paragraphs.push(STATUS.into());
        if self == Topic::All {
            paragraphs.insert(0, TOP.into());
        }
        paragraphs.join("\n")
    }

    /// Commands, and what is to be known of their words.
    fn parts(self) -> (&'static [&'static str], &'static [&'static str]) {
        match self {
            Topic::All => (
                &[
                    EXPLAIN, DUMP, REPAIR, WAITS, REPLAY, SIMULATE, MAKE, SHOW, OTHERS,
                ],
                &[
                    IMAGES, MEMORIES, REPAIRS, DRAWN, STREAMS, NIGHTS, NEW, HEADERS, FORMS, NUMBERS,
                ],
            ),
            Topic::Explain => (&[EXPLAIN], &[IMAGES]),
            Topic::Dump => (&[DUMP], &[IMAGES, MEMORIES]),
            Topic::Repair => (&[REPAIR], &[IMAGES, REPAIRS, NEW]),
            Topic::Waits => (&[WAITS], &[IMAGES, DRAWN, NEW]),
            Topic::Replay => (&[REPLAY], &[IMAGES, STREAMS, NEW]),
            Topic::Simulate => (&[SIMULATE], &[NIGHTS, NUMBERS, NEW]),
            Topic::Header => (&[MAKE, SHOW], &[HEADERS, FORMS, NUMBERS, NEW]),
            Topic::Make => (&[MAKE], &[FORMS, NUMBERS, NEW]),
            Topic::Show => (&[SHOW], &[HEADERS, FORMS, NUMBERS]),
        }
    }
}

#[cfg(test)]
mod tests {
    use super::*;

    #[test]
    fn a_part_is_of_its_command_alone() {
        let commands = [
            (Topic::Explain, "vr explain"),
            (Topic::Dump, "vr dump"),
            (Topic::Repair, "vr repair"),
            (Topic::Waits, "vr waits"),
            (Topic::Replay, "vr replay"),
            (Topic::Simulate, "vr simulate"),
            (Topic::Make, "vr header make"),
            (Topic::Show, "vr header show"),
        ];
        let all = Topic::All.text();
        for (topic, its) in commands {
            let text = topic.text();
            assert!(text.starts_with(&format!("    {its} ")), "{text}");
            for (other, command) in commands {
                assert_eq!(text.contains(command), topic == other, "{text}");
            }
            // Every paragraph of a part stands in the whole.
            assert!(text.split("\n\n").all(|part| all.contains(part)), "{text}");
        }
    }

    /// A word in capitals is explained where it is used.
    #[test]
    fn words_in_capitals_are_explained() {
        let topics = [
            (Topic::Explain, &["IMAGE"][..]),
            (Topic::Dump, &["IMAGE", "P0"]),
            (Topic::Repair, &["IMAGE", "NEW"]),
            (Topic::Waits, &["IMAGE", "NEW"]),
            (Topic::Replay, &["IMAGE", "STREAM", "NEW"]),
            (Topic::Simulate, &["PORT", "NEW"]),
            (Topic::Header, &["HEADER", "FORM", "NEW"]),
            (Topic::Make, &["FORM", "NEW"]),
            (Topic::Show, &["HEADER", "FORM"]),
        ];
        for (topic, names) in topics {
            let text = topic.text();
            for name in ["IMAGE", "P0", "STREAM", "PORT", "NEW", "HEADER", "FORM"] {
                let explained = text.contains(&format!("\n{name} "));
                assert_eq!(explained, names.contains(&name), "{name}: {text}");
            }
        }
    }

    #[test]
    fn lines_fit_a_page() {
        let all = Topic::All.text();
        assert!(all.lines().all(|line| line.len() <= 108));
        assert!(all.ends_with(".\n") && !all.contains("\n\n\n"));
    }
}
