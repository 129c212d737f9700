//! `vr header`: a header made of its fields, or shown. The proved writer and
//! reader do it; where they refuse, this crate's own reader says why.

use std::path::Path;

use ventorupo::{Form, Header, Refusal};

use crate::args::Given;
use crate::fields::{self, CHECKSUM, LENGTH, NAMES, QUEUE, RESERVED};
use crate::files;
use crate::hex::{self, NoBytes};
use crate::json;
use crate::layout::{row, Row, PORTS, QUEUES, TEN_BYTES};
use crate::table::columns;
use crate::trouble::Trouble;
use crate::view::counted;
use crate::Answer;

/// Should library and reader ever disagree.
const UNSEEN: &str = "vr's own reader sees nothing wrong: please report this header";

/// Make a header: its bytes in hexadecimal, and in a new file if one is named.
pub fn make(form: Form, header: &Header, new: Option<&Path>) -> Result<Answer, Trouble> {
    let bytes = match form.write(header) {
        Ok(bytes) => bytes,
        Err(refusal) => {
            let why = unwritten(form, header, refusal);
            return Ok(Answer::new(format!("{}\n", refused(refusal, why)), 1));
        }
    };
    let mut answer = Answer::new(format!("{}\n", hex::text(&bytes)), 0);
    if let Some(new) = new {
        files::write_new(new, &bytes)?;
        answer.aside = Some(format!("written: {}", new.display()));
        answer.written = Some(new.into());
    }
    Ok(answer)
}

/// A header as it was found.
struct Found {
    bytes: Vec<u8>,
    /// How many there are, of which not all need to have been read.
    there: u64,
    /// What they are as a text of hexadecimal digits, if they are one and were
    /// not read as it.
    as_text: Result<Vec<u8>, NoBytes>,
}

impl Found {
    fn new(bytes: Vec<u8>) -> Found {
        Found {
            there: bytes.len() as u64,
            bytes,
            as_text: Err(NoBytes::NotHexadecimal),
        }
    }

    fn get(form: Form, given: Given) -> Result<Found, Trouble> {
        match given {
            Given::Bytes(bytes) => Ok(Found::new(bytes)),
            Given::Input => Ok(Found::decoded(form, Found::new(files::read_input()?))),
            Given::File(path) => {
                let read = files::read_header(&path);
                let (bytes, there) = read.map_err(|trouble| neither(&path, trouble))?;
                let found = Found::new(bytes);
                Ok(Found::decoded(form, Found { there, ..found }))
            }
        }
    }

    /// What was found is taken for a text if that gives as many bytes as a header
    /// has. No bytes are both: a text has at least twice as many.
    fn decoded(form: Form, found: Found) -> Found {
        let whole = found.bytes.len() as u64 == found.there;
        let text = std::str::from_utf8(&found.bytes).ok().filter(|_| whole);
        match text.map_or(Err(NoBytes::NotHexadecimal), hex::bytes) {
            Ok(bytes) if bytes.len() == fields::size(form) => Found::new(bytes),
            as_text => Found { as_text, ..found },
        }
    }
}

/// A word that is no file: nor is it hexadecimal, or it would not be taken for one.
fn neither(path: &Path, trouble: Trouble) -> Trouble {
    match path.exists() {
        true => trouble,
        false => Trouble(format!("{trouble}, and it is not hexadecimal")),
    }
}

/// A header with what is known of it.
pub struct Shown {
    pub form: Form,
    /// Its bytes.
    pub there: u64,
    /// Also of a header that is refused, if it has the right size.
    pub fields: Option<Header>,
    /// The refusal, and what is said of it.
    pub refused: Option<(Refusal, String)>,
}

/// Show what a header says, and why it is none if it is none.
pub fn show(form: Form, given: Given, as_json: bool) -> Result<Answer, Trouble> {
    let shown = look(form, &Found::get(form, given)?);
    let text = match as_json {
        true => json::header(&shown),
        false => shown.text(),
    };
    Ok(Answer::new(text, shown.refused.is_some().into()))
}

fn look(form: Form, found: &Found) -> Shown {
    let (fields, refused) = match form.read(&found.bytes) {
        Ok(header) => (Some(header), None),
        Err(refusal) => {
            let why = refused(refusal, unread(form, found, refusal));
            (
                as_it_stands(form, &found.bytes, refusal),
                Some((refusal, why)),
            )
        }
    };
    Shown {
        form,
        there: found.there,
        fields,
        refused,
    }
}

/// The fields of a header that is refused for one of them.
fn as_it_stands(form: Form, bytes: &[u8], refusal: Refusal) -> Option<Header> {
    let formless = [Refusal::BadSetting, Refusal::HeaderSize].contains(&refusal);
    if formless || bytes.len() != fields::size(form) {
        return None;
    }
    let said = fields::read(form, bytes);
    let mut numbers = Header::default().numbers();
    for (number, (at, ..)) in numbers.iter_mut().zip(told(form)) {
        *number = said[at];
    }
    Some(Header::from_numbers(numbers))
}

impl Shown {
    fn text(&self) -> String {
        let form = its_form(self.form);
        let table = self.fields.map(|header| table(self.form, &header));
        match (&self.refused, table) {
            (None, table) => format!("{form}\n\n{}", table.unwrap_or_default()),
            (Some((_, why)), None) => format!("{why}\n"),
            (Some((_, why)), Some(table)) => format!("{why}\n\nread as {form}\n\n{table}"),
        }
    }
}

/// The number and the meaning of a refusal, and what shows it.
fn refused(refusal: Refusal, why: Option<String>) -> String {
    let why = why.unwrap_or_else(|| UNSEEN.into());
    format!("refused ({}): {refusal}: {why}", refusal.number())
}

/// The names of the fields that have numbers of their own, with their widths
/// and places among all.
pub fn told(form: Form) -> impl Iterator<Item = (usize, &'static str, u32)> {
    let all = NAMES.into_iter().zip(fields::widths(form)).enumerate();
    all.filter(|(at, _)| ![RESERVED, CHECKSUM].contains(at))
        .map(|(at, (name, width))| (at, name, width))
}

fn table(form: Form, header: &Header) -> String {
    let mut rows = vec![["field", "bits", "number"].map(String::from).to_vec()];
    for ((_, name, width), number) in told(form).zip(header.numbers()) {
        rows.push(vec![name.into(), width.to_string(), number.to_string()]);
    }
    columns("", &rows)
}

/// `a wide header for 8 ports and 16 queues: 11 bytes`.
fn its_form(form: Form) -> String {
    let edition = match form.edition {
        TEN_BYTES => "a ten-byte header",
        _ => "a wide header",
    };
    let (ports, queues) = (form.ports, form.queues);
    let bytes = fields::size(form);
    format!("{edition} for {ports} ports and {queues} queues: {bytes} bytes")
}

/// Why a form is none that a switch has: every count that is not in its row.
fn no_form(form: Form) -> Option<String> {
    let wrong = |(setting, number): (usize, u32)| {
        let Row { name, row, has } = row(setting, form.edition);
        (!has(number)).then(|| format!("{name} {number} ({row})"))
    };
    let counts = [(PORTS, form.ports), (QUEUES, form.queues)];
    let wrong: Vec<String> = counts.into_iter().filter_map(wrong).collect();
    (!wrong.is_empty()).then(|| wrong.join(", "))
}

/// Why a header is not read.
fn unread(form: Form, found: &Found, refusal: Refusal) -> Option<String> {
    let size = fields::size(form);
    match refusal {
        Refusal::BadSetting => no_form(form),
        Refusal::HeaderSize => (found.there != size as u64).then(|| wrong_size(form, found)),
        _ if found.bytes.len() != size => None,
        _ => unfit(form, &found.bytes, refusal),
    }
}

fn wrong_size(form: Form, found: &Found) -> String {
    let (has, size) = (counted(found.there, "byte"), fields::size(form));
    let mut what = format!("it has {has}, and should have {size}");
    let mut bytes = found.there;
    match &found.as_text {
        Ok(text) => {
            bytes = text.len() as u64;
            what += &format!("; as hexadecimal digits it is {}", counted(bytes, "byte"));
        }
        Err(NoBytes::NotHexadecimal) => {}
        Err(halved) => what += &format!("; as a text, {halved}"),
    }
    if form.edition == TEN_BYTES && [11, 12].contains(&bytes) {
        what += "; of a wide one --ports and --queues must be told";
    }
    what
}

/// What is wrong with the fields of a header of the right size.
fn unfit(form: Form, bytes: &[u8], refusal: Refusal) -> Option<String> {
    let said = fields::read(form, bytes);
    match refusal {
        Refusal::Checksum => {
            let (is, due) = (said[CHECKSUM], fields::checksum(&bytes[..bytes.len() - 1]));
            let wrong = is != u32::from(due);
            wrong.then(|| format!("it is {is:02X}, and should be {due:02X}"))
        }
        Refusal::ReservedBit => {
            let (bits, width) = (said[RESERVED], fields::widths(form)[RESERVED] as usize);
            (bits != 0).then(|| match width {
                1 => "it is the only one".into(),
                _ => format!("all {width} are {bits:0width$b}"),
            })
        }
        Refusal::TooShort => {
            let (is, least) = (said[LENGTH], fields::least(form));
            (is < least).then(|| format!("it is {is}, and {least} is the least"))
        }
        Refusal::HeaderQueue => {
            let (is, last) = (said[QUEUE], form.queues - 1);
            (is > last).then(|| format!("it is {is}, and {last} is the last"))
        }
        _ => None,
    }
}

/// Why a header is not written: every number that does not fit.
fn unwritten(form: Form, header: &Header, refusal: Refusal) -> Option<String> {
    if refusal == Refusal::BadSetting {
        return no_form(form);
    }
    let mut wrong = Vec::new();
    for ((at, name, width), number) in told(form).zip(header.numbers()) {
        let most = match at {
            QUEUE => form.queues - 1,
            _ => fields::largest(width),
        };
        if number > most {
            wrong.push(format!("{name} {number} is above {most}"));
        }
        if at == LENGTH && number < fields::least(form) {
            wrong.push(format!("{name} {number} is under {}", fields::least(form)));
        }
    }
    (!wrong.is_empty()).then(|| wrong.join(", "))
}
