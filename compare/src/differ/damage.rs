//! Damages files: lines, fields and counts of a draft, then bytes; or one line or one name alone.

use super::draft::Draft;
use super::line_damage::damage_a_line;
use super::names::misspelled;
use super::rng::Rng;
use super::spelling::{names_of, Place};

/// Fields that lie close to legal ones.
pub const ODD_FIELDS: &[&str] = &[
    "0",
    "1",
    "2",
    "3",
    "4",
    "5",
    "6",
    "7",
    "8",
    "9",
    "10",
    "11",
    "12",
    "13",
    "14",
    "15",
    "16",
    "17",
    "20",
    "100",
    "101",
    "177777",
    "177776",
    "200000",
    "777777",
    "000000",
    "0000000",
    "1000000",
    "-1",
    "+1",
    "*",
    "**",
    "***",
    "*0",
    "A",
    "Z9",
    "ABCDEF",
    "ABCDEFG",
    "1A",
    "a",
    "A.B",
    "A$",
    ".A",
    "$A",
    "A#B",
    "A%B",
    "A-B",
    "A/B",
    "A$B.C1D",
    "_A",
    "***CODE",
    "***END",
    "***TITLE",
    "***ENTRY",
    "***EXT",
    "***LSB",
    "***LEB",
    "***DBDB",
    "***DBIB",
    "***FPB",
    "***PB",
    "***AENTRY",
    "***end",
    "***ENDS",
];

const ODD_LINES: &[&str] = &[
    "1 ***END",
    "3 ***TITLE",
    "6 ***LSB",
    "7 ***LEB",
    "0 0 0 ***CODE",
    "0 1 0 ***CODE",
    "4 0 ***ENTRY",
    "4 1 ***ENTRY",
    "5 1 ***EXT",
    "10 0 A 0 ***DBDB",
    "11 0 ***DBIB",
    "12 1 ***FPB",
    "13 1 ***AENTRY",
    "A",
    "B 0 0",
    "A 0 1 0",
    "1 2 3 4",
    "* 1 2 3 4 0 5 1",
    "* 1 2 3 4 0 3 1",
    "* 1 2 3 4 0 6 1",
    "* 1 2 3 4 1 5 1",
    "A 0 2",
    "B 0 2 0",
    "1 1",
    "1 1 1",
    "a b c d e",
];

const ODD_BYTES: &[u8] =
    &[0, 9, 10, 13, 27, 31, 32, 33, 35, 36, 37, 42, 45, 46, 47, 48, 55, 56, 57, 64, 65, 90, 91, 97, 126, 127, 128, 255];

/// A damaged file. The damage may still leave a file that loads.
pub fn damaged(draft: &Draft, rng: &mut Rng) -> Vec<u8> {
    let mut draft = draft.clone();
    if rng.percent(10) {
        let mut file = draft.laid_out(rng);
        misspell_a_name(&mut file, rng);
        return file;
    }
    if rng.percent(40) {
        let mut file = draft.laid_out(rng);
        damage_a_line(&mut file, rng);
        return file;
    }
    if rng.percent(70) {
        (0..*rng.pick(&[1, 1, 1, 2, 3])).for_each(|_| damage_draft(&mut draft, rng));
    }
    let mut file = draft.laid_out(rng);
    if rng.percent(40) {
        (0..*rng.pick(&[1, 1, 1, 2, 4])).for_each(|_| damage_bytes(&mut file, rng));
    }
    file
}

/// Lines of all kinds in no order, often behind a title and a header, for else hardly any is read as a record.
pub fn odd_lines(rng: &mut Rng) -> Draft {
    let mut draft = Draft::default();
    if rng.percent(60) {
        draft.line("3 ***TITLE");
        draft.line("A");
        draft.line(*rng.pick(&["4 1 ***ENTRY", "0 1 0 ***CODE", "12 1 ***FPB", "6 ***LSB"]));
    }
    (0..rng.within(1..=8)).for_each(|_| draft.line(*rng.pick(ODD_LINES)));
    draft
}

/// Misspells some name of the file, if it has one: of a place that is drawn first, for few names are symbols of DBDB.
fn misspell_a_name(file: &mut Vec<u8>, rng: &mut Rng) {
    let mut names = names_of(file);
    let mut places = Place::OF_FILES.to_vec();
    places.retain(|&place| names.iter().any(|name| name.place == place));
    if places.is_empty() {
        return;
    }
    let place = *rng.pick(&places);
    names.retain(|name| name.place == place);
    let range = rng.pick(&names).range.clone();
    let name = misspelled(&file[range.clone()], rng);
    file.splice(range, name);
}

fn damage_draft(draft: &mut Draft, rng: &mut Rng) {
    if draft.lines.is_empty() {
        draft.line(*rng.pick(ODD_LINES));
        return;
    }
    let count = draft.lines.len();
    let at = rng.below(count);
    match rng.below(12) {
        0 => drop(draft.lines.remove(at)),
        1 => draft.lines.insert(at, draft.lines[at].clone()),
        2 => draft.lines.swap(at, rng.below(count)),
        3 => {
            let line = draft.lines[rng.below(count)].clone();
            draft.lines.insert(at, line);
        }
        4 => {
            let odd = rng.pick(ODD_LINES).split(' ').map(String::from).collect();
            draft.lines.insert(at, odd);
        }
        5 => draft.lines.truncate(at),
        6 | 7 => damage_count(draft, rng),
        _ => damage_fields(&mut draft.lines[at], rng),
    }
}

fn damage_fields(fields: &mut Vec<String>, rng: &mut Rng) {
    if fields.is_empty() {
        fields.push(rng.pick(ODD_FIELDS).to_string());
        return;
    }
    let count = fields.len();
    let at = rng.below(count);
    match rng.below(7) {
        0 => drop(fields.remove(at)),
        1 => fields.insert(at, fields[at].clone()),
        2 => fields.swap(at, rng.below(count)),
        3 => fields.insert(rng.within(0..=count), rng.pick(ODD_FIELDS).to_string()),
        4 => fields[at].push(char::from(rng.within(33..=126) as u8)),
        5 => step_number(&mut fields[at], rng),
        _ => fields[at] = rng.pick(ODD_FIELDS).to_string(),
    }
}

/// One more or one less in the count of some header.
fn damage_count(draft: &mut Draft, rng: &mut Rng) {
    let is_counted =
        |fields: &[String]| fields.len() >= 3 && fields.last().is_some_and(|field| field.starts_with("***"));
    let headers: Vec<usize> = (0..draft.lines.len()).filter(|&line| is_counted(&draft.lines[line])).collect();
    if !headers.is_empty() {
        step_number(&mut draft.lines[*rng.pick(&headers)][1], rng);
    }
}

fn step_number(field: &mut String, rng: &mut Rng) {
    if let Ok(value) = u32::from_str_radix(field, 8) {
        *field = format!("{:o}", if rng.percent(50) { value.saturating_add(1) } else { value.saturating_sub(1) });
    }
}

fn damage_bytes(file: &mut Vec<u8>, rng: &mut Rng) {
    if file.is_empty() {
        file.push(*rng.pick(ODD_BYTES));
        return;
    }
    let at = rng.below(file.len());
    match rng.below(7) {
        0 => file[at] = rng.next() as u8,
        1 | 2 => file[at] = *rng.pick(ODD_BYTES),
        3 => file.insert(at, *rng.pick(ODD_BYTES)),
        4 => drop(file.remove(at)),
        5 => file.truncate(at),
        _ => {
            // spaces that take some line to about 80 bytes
            let spaces = vec![b' '; rng.within(60..=81)];
            file.splice(at..at, spaces);
        }
    }
}
