//! `vr header`: headers made and shown, and why some are none.

mod common;
#[path = "common/reading.rs"]
mod reading;

use std::ffi::OsString;
use std::fs::{self, File};
use std::io::Write;
use std::path::Path;
use std::process::Stdio;

use common::{command, full, vr, Folder, Said};
use reading::Json;
use traffic::{Random, SHAPES};
use ventorupo::{Form, Header, TEN_BYTES};

const HINT: &str = " (`vr help` tells the commands)";

/// A run of `vr header` with the words of a line.
fn header(line: &str) -> Said {
    let words: Vec<&str> = line.split_whitespace().collect();
    vr(&[&["header"], &words[..]].concat())
}

/// It must be done, and say just this.
fn says(line: &str, text: &str) {
    let said = header(line);
    assert_eq!((said.out.as_str(), said.err.as_str()), (text, ""), "{line}");
    assert_eq!(said.status, Some(0));
}

/// It must be refused with just these words.
fn refused(line: &str, words: &str) {
    refused_with(line, &format!("{words}\n"));
}

/// It must be refused, and say just this.
fn refused_with(line: &str, text: &str) {
    let said = header(line);
    assert_eq!((said.out.as_str(), said.err.as_str()), (text, ""), "{line}");
    assert_eq!(said.status, Some(1));
}

#[test]
fn made_in_ten_bytes() {
    let least = "make --destination 0 --source 0 --queue 0 --length 12";
    says(least, "00003000000000000072\n");
    says(&format!("{least} --edition ten"), "00003000000000000072\n");
    let counts = "--edition ten --ports 4 --queues 24";
    says(&format!("{least} {counts}"), "00003000000000000072\n");
    // The paper's card.
    let card = "make --destination 1 --source 2 --queue 23 --length 8191";
    says(card, "6BFFFC000000000000A4\n");
    let all = "--poisoned 1 --timestamp 0xDEADbeef --credit 255 --transaction 0x7F";
    says(&format!("{card} {all}"), "6BFFFEDEADBEEFFF7FDF\n");
}

#[test]
fn made_wide() {
    let fields = "--destination 3 --source 1 --queue 5 --length 100 --credit 40000";
    for (counts, bytes) in [
        ("--ports 4 --queues 24", "D28190000000009C400045\n"),
        ("--ports 8 --queues 16", "6540C8000000009C400043\n"),
        ("--queues 0x20 --ports 0x10", "31281900000000009C40005E\n"),
        ("--ports 32 --queues 64", "18450320000000009C40006B\n"),
    ] {
        says(&format!("make {counts} {fields}"), bytes);
        says(&format!("make --edition wide {counts} {fields}"), bytes);
    }
}

const SHOWN: &str = "\
a wide header for 8 ports and 16 queues: 11 bytes

      field  bits  number
destination     3       3
     source     3       1
      queue     4       5
     length    13     100
   poisoned     1       0
  timestamp    32       0
     credit    16   40000
transaction     8       0
";

#[test]
fn shown_as_a_table() {
    let counts = "--ports 8 --queues 16";
    says(&format!("show {counts} 6540C8000000009C400043"), SHOWN);
    says(&format!("show 6540c8 00000000 9c40 00 43 {counts}"), SHOWN);
    let ten = header("show 6BFFFEDEADBEEFFF7FDF").out;
    assert!(ten.starts_with("a ten-byte header for 4 ports and 24 queues: 10 bytes\n\n"));
    let numbers: Vec<&str> = ten
        .lines()
        .skip(3)
        .filter_map(|line| line.split(' ').next_back())
        .collect();
    let wanted = ["1", "2", "23", "8191", "1", "3735928559", "255", "127"];
    assert_eq!(numbers, wanted);
}

#[test]
fn shown_as_json() {
    let said = header("show --json --ports 8 --queues 16 6540C8000000009C400043");
    let json = Json::read(&said.out);
    let members = [("edition", 1), ("ports", 8), ("queues", 16), ("bytes", 11)];
    for (name, number) in members {
        assert_eq!(json.of(name).number(), number);
    }
    assert_eq!(
        (json.of("refused"), json.of("words")),
        (&Json::Null, &Json::Null)
    );
    let fields = json.of("fields");
    for (name, number) in [
        ("destination", 3),
        ("source", 1),
        ("queue", 5),
        ("length", 100),
        ("poisoned", 0),
        ("timestamp", 0),
        ("credit", 40_000),
        ("transaction", 0),
    ] {
        assert_eq!(fields.of(name).number(), number);
    }
    assert_eq!((said.status, said.err.as_str()), (Some(0), ""));
    let said = header("show --json 00003000000000000073");
    let json = Json::read(&said.out);
    assert_eq!((said.status, json.of("refused").number()), (Some(1), 7));
    let words = "refused (7): checksum differs: it is 73, and should be 72";
    assert_eq!(json.of("words").text(), words);
    // Its fields, as they stand.
    assert_eq!(json.of("fields").of("length").number(), 12);
    for none in ["00", "--ports 33 --queues 2 00"] {
        let said = header(&format!("show --json {none}"));
        assert_eq!(*Json::read(&said.out).of("fields"), Json::Null);
    }
}

/// A file of the bytes that make has written.
#[test]
fn written_and_shown_again() {
    let folder = Folder::new("header-file");
    let new = folder.path("new");
    let fields = "--destination 3 --source 1 --queue 5 --length 100 --credit 40000";
    let line = format!("make --ports 8 --queues 16 {fields} -o {}", new.display());
    // What is no header stands where no pipe carries it.
    let said = header(&line);
    assert_eq!(said.out, "6540C8000000009C400043\n");
    assert_eq!(said.err, format!("written: {}\n", new.display()));
    assert_eq!(said.status, Some(0));
    let bytes = [0x65, 0x40, 0xC8, 0, 0, 0, 0, 0x9C, 0x40, 0, 0x43];
    assert_eq!(fs::read(&new).unwrap(), bytes);
    let show = format!("show --ports 8 --queues 16 {}", new.display());
    says(&show, SHOWN);
    // A name of hexadecimal digits.
    folder.file("abcd", &bytes);
    let run = |name: &str| -> Said {
        let words = ["header", "show", "--ports", "8", "--queues", "16", name];
        let output = command().args(words).current_dir(folder.path("")).output();
        output.unwrap().into()
    };
    assert_eq!(run("./abcd").out, SHOWN);
    let two = "refused (6): header not of its edition's size: it has 2 bytes, and should have 11\n";
    assert_eq!(run("abcd").out, two);
}

#[test]
fn every_refusal_of_the_reader() {
    let six = "refused (6): header not of its edition's size: ";
    refused(
        "show 00",
        &format!("{six}it has 1 byte, and should have 10"),
    );
    let hint =
        "it has 11 bytes, and should have 10; of a wide one --ports and --queues must be told";
    refused("show 6540C8000000009C400043", &format!("{six}{hint}"));
    let counts = "--ports 5 --queues 33";
    let wide = "it has 11 bytes, and should have 12";
    refused(
        &format!("show {counts} 6540C8000000009C400043"),
        &format!("{six}{wide}"),
    );
    for (line, words) in [
        (
            "--ports 33 --queues 2 00",
            "refused (2): a setting not in its row: ports 33 (2 to 32)",
        ),
        (
            "--ports 2 --queues 1 00",
            "refused (2): a setting not in its row: queues 1 (2 to 64)",
        ),
        (
            "--edition ten --ports 5 00",
            "refused (2): a setting not in its row: ports 5 (4 in edition 0)",
        ),
        (
            "--edition ten --queues 23 00",
            "refused (2): a setting not in its row: queues 23 (24 in edition 0)",
        ),
        (
            "--ports 33 --queues 1 00",
            "refused (2): a setting not in its row: ports 33 (2 to 32), queues 1 (2 to 64)",
        ),
        (
            "--edition ten --ports 5 --queues 23 00",
            "refused (2): a setting not in its row: ports 5 (4 in edition 0), queues 23 (24 in edition 0)",
        ),
    ] {
        refused(&format!("show {line}"), words);
    }
}

/// What stands in a header of ten bytes that is refused for one of its fields.
fn ten_bytes(words: &str, length: u32, queue: u32) -> String {
    format!(
        "{words}

read as a ten-byte header for 4 ports and 24 queues: 10 bytes

      field  bits  number
destination     2       0
     source     2       0
      queue     5      {queue:>2}
     length    13      {length:>2}
   poisoned     1       0
  timestamp    32       0
     credit     8       0
transaction     8       0
"
    )
}

/// The same in a wide header.
fn wide(words: &str, length: u32, queue: u32) -> String {
    format!(
        "{words}

read as a wide header for 5 ports and 33 queues: 12 bytes

      field  bits  number
destination     3       7
     source     3       7
      queue     6      {queue:>2}
     length    13      {length:>2}
   poisoned     1       0
  timestamp    32       0
     credit    16       0
transaction     8       0
"
    )
}

/// Behind the reason stand the fields: a header is refused for one of them, and
/// the others may be of use.
#[test]
fn refused_for_a_field() {
    let checksum = "refused (7): checksum differs: it is F8, and should be F7";
    let only = "refused (20): a reserved bit of the header is 1: it is the only one";
    let least = "refused (9): length under the header's size plus 2: it is 11, and 12 is the least";
    let last = "refused (19): header's queue above the last: it is 31, and 23 is the last";
    for (digits, words, length) in [
        ("0F802D000000000000F8", checksum, 11),
        ("0F802D000000000000F7", only, 11),
        ("0F802C00000000000028", least, 11),
        ("0F803000000000000064", last, 12),
    ] {
        refused_with(&format!("show {digits}"), &ten_bytes(words, length, 31));
    }
    let several = "refused (20): a reserved bit of the header is 1: all 6 are 000101";
    let least = "refused (9): length under the header's size plus 2: it is 13, and 14 is the least";
    let last = "refused (19): header's queue above the last: it is 33, and 32 is the last";
    for (digits, words, length, queue) in [
        ("FE00070500000000000000EB", several, 14, 32),
        ("FE10068000000000000000E0", least, 13, 33),
        ("FE1007000000000000000026", last, 14, 33),
    ] {
        let line = format!("show --ports 5 --queues 33 {digits}");
        refused_with(&line, &wide(words, length, queue));
    }
}

#[test]
fn every_refusal_of_the_writer() {
    let no_fit = "refused (21): a value doesn't fit its field, length under the header's size plus 2, or queue above the last: ";
    let make = "make --destination 3 --source 3 --queue 23 --length 8191";
    says(make, "FBFFFC00000000000015\n");
    for (line, why) in [
        ("--poisoned 2", "poisoned 2 is above 1"),
        ("--credit 256", "credit 256 is above 255"),
        ("--transaction 256", "transaction 256 is above 255"),
        (
            "--poisoned 7 --credit 4294967295",
            "poisoned 7 is above 1, credit 4294967295 is above 255",
        ),
    ] {
        refused(&format!("{make} {line}"), &format!("{no_fit}{why}"));
    }
    for (line, why) in [
        ("4 3 23 8191", "destination 4 is above 3"),
        ("3 4 23 8191", "source 4 is above 3"),
        ("3 3 24 8191", "queue 24 is above 23"),
        ("3 3 23 8192", "length 8192 is above 8191"),
        ("3 3 23 11", "length 11 is under 12"),
        (
            "9 8 32 0",
            "destination 9 is above 3, source 8 is above 3, queue 32 is above 23, length 0 is under 12",
        ),
    ] {
        let mut numbers = line.split(' ');
        let names = ["--destination", "--source", "--queue", "--length"];
        let fields = names.map(|name| format!("{name} {}", numbers.next().unwrap()));
        refused(&format!("make {}", fields.join(" ")), &format!("{no_fit}{why}"));
    }
    let wide = "make --ports 5 --queues 33 --destination 7 --source 7 --queue 33 --length 13 --credit 65536";
    let why = "queue 33 is above 32, length 13 is under 14, credit 65536 is above 65535";
    refused(wide, &format!("{no_fit}{why}"));
    let none = "make --ports 1 --queues 33 --destination 0 --source 0 --queue 0 --length 100";
    refused(
        none,
        "refused (2): a setting not in its row: ports 1 (2 to 32)",
    );
}

/// Nothing is made of a header that is refused.
#[test]
fn a_refused_header_makes_no_file() {
    let folder = Folder::new("header-refused");
    let new = folder.path("new");
    let fields = "--destination 4 --source 0 --queue 0 --length 12";
    let said = header(&format!("make {fields} -o {}", new.display()));
    assert_eq!(said.status, Some(1));
    assert!(!new.exists());
}

/// A command that cannot be done: its reason on standard error alone.
fn trouble(line: &str, what: &str) {
    let said = header(line);
    assert_eq!(said.err, format!("vr: {what}\n"), "{line}");
    assert_eq!((said.status, said.out.as_str()), (Some(2), ""));
}

#[test]
fn wrong_command_lines() {
    for (line, what) in [
        ("", "header needs make or show behind it"),
        ("dump", "header needs make or show behind it, not `dump`"),
        ("make", "header make needs --destination N"),
        (
            "show",
            "header show needs a header, in hexadecimal or in a file",
        ),
        ("show --ports", "--ports needs a number behind it"),
        (
            "show --ports eight 00",
            "--ports needs a number behind it, 0 to 4294967295, not `eight`",
        ),
        (
            "show --ports -8 00",
            "--ports needs a number behind it, 0 to 4294967295, not `-8`",
        ),
        (
            "show --ports 8 00",
            "a wide header needs --ports N and --queues N",
        ),
        (
            "show --edition eleven 00",
            "--edition needs ten or wide behind it, not `eleven`",
        ),
        (
            "show 000",
            "`000` has 3 hexadecimal digits: no whole bytes; for a file of that name write `./000`",
        ),
        ("show 00 0g", "`0g` is not hexadecimal"),
        ("show 00 -", "`-`, for standard input, stands alone"),
        ("make --json", "`--json` is no option here"),
        (
            "make --detsination=1",
            "`--detsination=1` is no option here",
        ),
        ("make -o=new", "`-o=new` is no option here; write `-o new`"),
        (
            "show 00 --prots 8",
            "`--prots` is no option here; for a file of that name write `./--prots`",
        ),
    ] {
        trouble(line, &format!("{what}{HINT}"));
    }
    let said = vr(&["header", "show", ""]);
    let wanted = "vr: an empty word is neither a file nor hexadecimal";
    assert_eq!(said.err, format!("{wanted}{HINT}\n"));
}

#[test]
fn options_with_an_equals_sign() {
    let fields = "--destination=3 --source=1 --queue=0x5 --length=100 --credit=40000";
    let bytes = "6540C8000000009C400043\n";
    says(&format!("make --ports=8 --queues=16 {fields}"), bytes);
    says(
        &format!("show --edition=wide --ports=8 --queues=16 {bytes}"),
        SHOWN,
    );
}

/// Digits as other tools write them.
#[test]
fn shown_in_other_spellings() {
    for spelt in [
        "0x6540C8000000009C400043",
        "65:40:c8:00:00:00:00:9c:40:00:43",
        "65,40,C8,00,00,00,00,9C,40,00,43",
        "65-40-C8-00-00-00-00-9C-40-00-43",
        "0x65, 0x40, 0xC8, 0x00, 0x00, 0x00, 0x00, 0x9C, 0x40, 0x00, 0x43",
    ] {
        says(&format!("show --ports 8 --queues 16 {spelt}"), SHOWN);
    }
}

/// A run of `vr header` with this on its standard input.
fn piped(line: &str, input: &[u8]) -> Said {
    let mut vr = command();
    vr.arg("header").args(line.split_whitespace());
    let (input_pipe, out) = (Stdio::piped(), Stdio::piped());
    let vr = vr.stdin(input_pipe).stdout(out).stderr(Stdio::piped());
    let mut child = vr.spawn().unwrap();
    // It reads no more than it needs, and may be done before this is.
    let _ = child.stdin.take().unwrap().write_all(input);
    child.wait_with_output().unwrap().into()
}

#[test]
fn shown_off_standard_input() {
    let line = "show --ports 8 --queues 16 -";
    let bytes = [0x65, 0x40, 0xC8, 0, 0, 0, 0, 0x9C, 0x40, 0, 0x43];
    let digits = b"6540C8000000009C400043\n";
    let spelt = b"0x65 0x40 0xC8\n0x00 0x00 0x00 0x00\r\n0x9C 0x40 0x00 0x43\n";
    for input in [&bytes[..], digits, spelt] {
        let said = piped(line, input);
        assert_eq!((said.out.as_str(), said.err.as_str()), (SHOWN, ""));
        assert_eq!(said.status, Some(0));
    }
    let said = piped("show -", &bytes);
    let six = "refused (6): header not of its edition's size: it has";
    let wide = "11 bytes, and should have 10; of a wide one --ports and --queues must be told\n";
    assert_eq!(said.out, format!("{six} {wide}"));
    let said = piped("show --json -", b"00003000000000000072");
    assert_eq!(Json::read(&said.out).of("bytes").number(), 10);
    for (input, what) in [
        (vec![], "is empty, and should have a header"),
        (
            vec![b'0'; 193],
            "has more than 192 bytes, and a header at most 12",
        ),
        (
            vec![0; 1 << 20],
            "has more than 192 bytes, and a header at most 12",
        ),
    ] {
        let said = piped("show -", &input);
        assert_eq!(said.err, format!("vr: standard input: {what}\n"));
        assert_eq!((said.status, said.out.as_str()), (Some(2), ""));
    }
    let said = piped("show -", &[b'0'; 192]);
    let text = "192 bytes, and should have 10; as hexadecimal digits it is 96 bytes\n";
    assert_eq!(said.out, format!("{six} {text}"));
}

/// A file of hexadecimal digits is read as them if that makes a header.
#[test]
fn shown_of_a_text_file() {
    let folder = Folder::new("header-text");
    let show = |bytes: &[u8]| format!("show {}", folder.file("text", bytes).display());
    let counts = "--ports 8 --queues 16";
    let text = b"65:40:C8:00:00:00:00:9C:40:00:43\n";
    says(&format!("{} {counts}", show(text)), SHOWN);
    let ten = header(&show(b"6BFFFEDEADBEEFFF7FDF\n"));
    assert!(ten.out.starts_with("a ten-byte header "), "{}", ten.out);
    let six = "refused (6): header not of its edition's size: it has";
    for (text, what) in [
        (
            &b"6540C8000000009C400043\n"[..],
            "23 bytes, and should have 10; as hexadecimal digits it is 11 bytes; of a wide one --ports and --queues must be told",
        ),
        (
            b"00\n",
            "3 bytes, and should have 10; as hexadecimal digits it is 1 byte",
        ),
        (
            b"6BFFFEDE ADBEEFFF7FD\n",
            "21 bytes, and should have 10; as a text, `ADBEEFFF7FD` has 11 hexadecimal digits: no whole bytes",
        ),
        // A letter that is no digit.
        (b"6BFFFEDEADBEEFFF7FDG", "20 bytes, and should have 10"),
    ] {
        refused(&show(text), &format!("{six} {what}"));
    }
    // Ten bytes that are digits are a header all the same.
    let said = header(&show(b"0123456789"));
    assert!(said.out.starts_with("refused (7): "), "{}", said.out);
}

#[test]
fn files_that_cannot_be_read_or_written() {
    let folder = Folder::new("header-files");
    let named = |path: &Path, why: &str| format!("{}: {why}", path.display());
    let missing = folder.path("missing");
    let no_file = "No such file or directory (os error 2)";
    let why = named(&missing, &format!("{no_file}, and it is not hexadecimal"));
    trouble(&format!("show {}", missing.display()), &why);
    trouble(
        "show 6BFFFG",
        &format!("6BFFFG: {no_file}, and it is not hexadecimal"),
    );
    let inside = folder.path("");
    let why = named(&inside, "is a directory, not a header");
    trouble(&format!("show {}", inside.display()), &why);
    trouble("show /dev/zero", "/dev/zero: is not a regular file");
    let make = "make --destination 0 --source 0 --queue 0 --length 12 -o";
    let taken = folder.file("taken", b"mine");
    let why = named(&taken, "is there already, and vr overwrites nothing");
    trouble(&format!("{make} {}", taken.display()), &why);
    assert_eq!(fs::read(&taken).unwrap(), b"mine");
    let nowhere = folder.path("no/such/folder");
    let why = named(&nowhere, "No such file or directory (os error 2)");
    trouble(&format!("{make} {}", nowhere.display()), &why);
}

/// Of a file of any size no more is read than a header has.
#[test]
fn files_that_are_no_header() {
    let folder = Folder::new("header-sizes");
    let empty = folder.file("empty", b"");
    let huge = folder.path("huge");
    File::create(&huge).unwrap().set_len(1 << 33).unwrap();
    let six = "refused (6): header not of its edition's size: it has";
    let words = format!("{six} 0 bytes, and should have 10");
    refused(&format!("show {}", empty.display()), &words);
    let words = format!("{six} 8589934592 bytes, and should have 10");
    refused(&format!("show {}", huge.display()), &words);
}

/// The file is there though nothing can be said of it, and that is told.
#[test]
fn a_header_of_which_nothing_can_be_said() {
    let full = match full() {
        Some(full) => full,
        None => return,
    };
    let folder = Folder::new("header-full");
    let new = folder.path("new");
    let mut vr = command();
    vr.args("header make --destination 0 --source 0 --queue 0 --length 12 -o".split(' '));
    let said = Said::from(vr.arg(&new).stdout(full).output().unwrap());
    let wanted = format!(
        "vr: standard output: No space left on device (os error 28); {} was written\n",
        new.display()
    );
    assert_eq!((said.status, said.err), (Some(2), wanted));
    assert_eq!(fs::read(&new).unwrap().len(), 10);
}

/// Any of the shapes that all programs are tested with.
fn some_form(random: &mut Random) -> Form {
    let shape = random.pick(&SHAPES);
    Form {
        edition: shape.edition,
        ports: shape.ports,
        queues: shape.queues,
    }
}

/// In this process.
fn told(line: &str) -> (String, u8) {
    let words = format!("header {line}");
    let words = words.split_whitespace().map(OsString::from);
    let answer = vr::answer(words).unwrap();
    (answer.text, answer.status)
}

/// The options that tell a form.
fn options(form: Form) -> String {
    let edition = if form.edition == TEN_BYTES {
        "ten"
    } else {
        "wide"
    };
    let (ports, queues) = (form.ports, form.queues);
    format!("--edition {edition} --ports {ports} --queues {queues}")
}

/// Numbers that mostly fit, and at times do not.
fn some_header(form: Form, random: &mut Random) -> Header {
    let ports = form.ports.next_power_of_two();
    let most = [ports, ports, form.queues, 8192, 2, 1 << 20, 256, 256];
    let mut numbers = most.map(|most| random.below(most));
    if random.one_in(3) {
        let field = random.below(8) as usize;
        numbers[field] = random.pick(&[most[field], 7, 64, 65_536, u32::MAX]);
    }
    Header::from_numbers(numbers)
}

/// The fields in their order.
const NAMES: [&str; 8] = [
    "destination",
    "source",
    "queue",
    "length",
    "poisoned",
    "timestamp",
    "credit",
    "transaction",
];

/// Show says these fields of what make has said.
fn shows(options: &str, text: &str, header: &Header) {
    let (shown, status) = told(&format!("show --json {options} {text}"));
    let json = Json::read(&shown);
    for (name, number) in NAMES.iter().zip(header.numbers()) {
        assert_eq!(json.of("fields").of(name).number(), number.into());
    }
    assert_eq!(status, 0);
}

/// What make says is what the library writes, and show undoes it; and of what is
/// refused this tool's own reader always knows the reason.
#[test]
fn made_and_shown_in_every_shape() {
    let mut random = Random::new(21);
    let (mut made, mut refusals) = (0, 0);
    for _ in 0..2000 {
        let form = some_form(&mut random);
        let header = some_header(form, &mut random);
        let fields = NAMES.iter().zip(header.numbers());
        let fields: Vec<String> = fields
            .map(|(name, number)| format!("--{name} {number}"))
            .collect();
        let options = options(form);
        let (text, status) = told(&format!("make {options} {}", fields.join(" ")));
        match form.write(&header) {
            Ok(bytes) => {
                assert_eq!((text.trim_end(), status), (digits(&bytes).as_str(), 0));
                shows(&options, &text, &header);
                made += 1;
            }
            Err(refusal) => {
                assert!(text.starts_with(&format!("refused ({}): ", refusal.number())));
                assert!(!text.contains("report"), "{text}");
                assert_eq!(status, 1);
                refusals += 1;
            }
        }
    }
    assert!(made > 300 && refusals > 300, "{made} {refusals}");
}

fn digits(bytes: &[u8]) -> String {
    bytes.iter().map(|byte| format!("{byte:02X}")).collect()
}

/// CRC-8, for headers that nobody would write.
fn summed(bytes: &mut [u8]) {
    let step = |sum: u8| sum << 1 ^ if sum & 0x80 == 0 { 0 } else { 7 };
    let last = bytes.len() - 1;
    let eight = |sum: u8, byte: &u8| (0..8).fold(sum ^ byte, |sum, _| step(sum));
    bytes[last] = bytes[..last].iter().fold(0, eight);
}

#[test]
fn any_bytes_at_all() {
    let mut random = Random::new(22);
    let mut numbers = Vec::new();
    for _ in 0..4000 {
        let form = some_form(&mut random);
        let size = form.size().unwrap() + usize::from(random.one_in(9));
        let width = random.pick(&[2, 256]);
        let mut bytes: Vec<u8> = (0..size).map(|_| random.below(width) as u8).collect();
        // Often no reserved bit, and a checksum that fits.
        if random.one_in(2) {
            bytes[2..4].fill(0);
        }
        if !random.one_in(5) {
            summed(&mut bytes);
        }
        let (text, status) = told(&format!("show {} {}", options(form), digits(&bytes)));
        assert!(!text.contains("report"), "{text}");
        let number = form
            .read(&bytes)
            .map_or_else(|refusal| refusal.number(), |_| 0);
        assert_eq!(status, (number > 0).into());
        if number > 0 {
            assert!(text.starts_with(&format!("refused ({number}): ")));
        }
        numbers.push(number);
    }
    numbers.sort_unstable();
    numbers.dedup();
    assert_eq!(numbers, [0, 6, 7, 9, 19, 20]);
}
