//! Request 5/14: loads in pieces. Sizes of pieces, totals, which piece advises what, and from which state a close loads. What
//! feed memory may hold is in `feed_memory`.

use super::*;
use crate::memory::{BROKEN, FROZEN, MARK, STATE_CELLS, WORK_CELLS};

pub fn all() -> Vec<Case> {
    [
        sizes(),
        unfit(),
        totals(),
        cut_everywhere(),
        each_advice(),
        borders(),
        first_fault(),
        last_lines(),
        faults_at_the_limit(),
        closes(),
        closes_refused_by_the_state(),
        other_states(),
        walks(),
    ]
    .concat()
}

pub fn open(number: u64) -> Step {
    call(Call::Open, number, 0)
}

/// A piece that advises nothing.
pub fn piece(bytes: impl Into<Vec<u8>>, number: u64) -> Step {
    Step { advice: Some((0, 0, 0)), ..call(Call::Feed(bytes.into()), number, 0) }
}

/// A piece that advises a fault, at a line and a column.
fn advised(bytes: impl Into<Vec<u8>>, number: u64, line: u64, column: u64) -> Step {
    Step { advice: Some((number, line, column)), ..piece(bytes, 0) }
}

pub fn close(number: u64, line: u64) -> Step {
    call(Call::close(), number, line)
}

/// A close that is refused for a fault of a line.
fn bad_close(number: u64, line: u64, column: u64) -> Step {
    Step { expected: Some((number, line, column)), ..close(number, line) }
}

pub fn dropped(number: u64) -> Step {
    call(Call::Drop, number, 0)
}

/// As if these bytes had been fed.
pub fn fed(bytes: impl Into<Vec<u8>>) -> Step {
    Call::Fed(bytes.into()).into()
}

/// All of a file in pieces of a size, which advise nothing.
fn pieces(file: &[u8], size: usize) -> Vec<Step> {
    file.chunks(size).map(|bytes| piece(bytes, 0)).collect()
}

/// An open, these, and a close or whatever ends them.
fn session(steps: impl IntoIterator<Item = Step>, end: Step) -> Vec<Step> {
    [open(0)].into_iter().chain(steps).chain([end]).collect()
}

/// A piece of 512 bytes is the longest. A longer one is refused, and none of it is kept.
fn sizes() -> Vec<Case> {
    let blank = |size| " ".repeat(size).into_bytes();
    let name = module("A", &entries(&names(0, 1)));
    let mut cases = Vec::new();
    for size in [0, 1, 2, 7, 8, 9, 511, 512] {
        let file = [&vec![b'\n'; size][..], name.as_bytes()].concat();
        let steps = session([piece(&file[..size], 0), piece(&file[size..], 0)], close(0, 0));
        cases.push(case(format!("a piece of {size} bytes"), [steps, vec![symbols(1)]].concat()));
    }
    for size in [513, 514, 1024, 65_535, 65_536, 65_537] {
        let steps = [piece(&name[..9], 0), piece(blank(size), 23), piece(&name[9..], 0)];
        let steps = [session(steps, close(0, 0)), vec![symbols(1), piece(blank(size), 23)]].concat();
        cases.push(case(format!("a piece of {size} bytes"), steps));
    }
    let short = [piece("2", 0), piece(vec![b'\n'; 513], 23), advised("\n", 20, 1, 1), piece(vec![b'\n'; 513], 23)];
    cases.push(case("longer pieces of line ends advise nothing", session(short, bad_close(20, 1, 1))));
    let empty = [piece("", 0), piece("6 ***LSB", 0), piece("", 0), piece("\n7 ***LEB\n", 0), piece("", 0)];
    cases.push(case("empty pieces", session(empty, Step { rounds: Some(1), ..close(0, 0) })));
    cases
}

/// An open where one is open, and the rest where none is.
fn unfit() -> Vec<Case> {
    let file = section(&module("A", &entries(&names(0, 1))));
    let none = || vec![piece("", 23), piece("2\n", 23), piece(vec![b' '; 513], 23), close(23, 0), dropped(23)];
    let open_again = session([open(23), piece(&*file, 0), open(23)], Step { rounds: Some(1), ..close(0, 0) });
    let too_long = [fed(vec![b'\n'; 65_537]), open(23), piece("2\n", 0), open(23), close(5, 0)];
    vec![
        case("none open", none()),
        case("an open where one is open", open_again),
        case("an open where too many bytes were fed", too_long),
        case("none open behind a close", [session([], close(0, 0)), none(), session([], close(0, 0))].concat()),
        case("none open behind a drop", [session([piece("2", 0)], dropped(0)), none(), vec![open(0)]].concat()),
        case("none open behind a refused close", [session([piece("2", 0)], bad_close(20, 1, 1)), none()].concat()),
        case("a drop and an open", [session([piece("2", 0)], dropped(0)), session([], close(0, 0))].concat()),
        case("a drop with none open", [dropped(23), open(0), dropped(0), dropped(23)]),
    ]
}

/// Totals about 65,536, fed by pieces of 512, and a little more of each.
fn totals() -> Vec<Case> {
    let mut cases = Vec::new();
    for (total, number) in [(65_024, 0), (65_535, 0), (65_536, 0), (65_537, 5), (66_048, 5), (70_000, 5), (131_073, 5)]
    {
        let steps = session(pieces(&vec![b'\n'; total], 512), close(number, 0));
        cases.push(case(format!("{total} line ends in pieces"), steps));
        let name = module("A", &entries(&names(0, 1)));
        let file = "\n".repeat(total - name.len()) + &name;
        let steps = session(pieces(file.as_bytes(), 512), close(number, 0));
        cases.push(case(
            format!("a module at the end of {total} bytes"),
            [steps, vec![symbols((5 - number as usize) / 5)]].concat(),
        ));
    }
    for (there, more) in [(65_535, 0), (65_535, 1), (65_536, 0), (65_024, 512)] {
        let steps = [fed(vec![b'\n'; there]), piece(vec![b'\n'; more], 0), piece("", 0), close(0, 0)];
        cases.push(case(format!("{there} bytes and {more} more"), steps));
    }
    for (there, more) in
        [(65_535, 2), (65_535, 512), (65_536, 1), (65_536, 512), (65_025, 512), (65_537, 0), (65_537, 1)]
    {
        let on = [piece("", 0), piece("\n", 0), piece(vec![b' '; 512], 0), piece(vec![b' '; 513], 23)];
        let steps =
            [vec![fed(vec![b'\n'; there]), piece(vec![b'\n'; more], 0)], on.to_vec(), vec![close(5, 0)]].concat();
        cases.push(case(format!("{there} bytes, {more} more and more"), steps.clone()));
        let drop = [&steps[..steps.len() - 1], &[dropped(0), open(0), close(0, 0)]].concat();
        cases.push(case(format!("{there} bytes, {more} more, and a drop"), drop));
    }
    cases
}

/// A small file cut at each of its places, and in pieces of each size.
fn cut_everywhere() -> Vec<Case> {
    let file = "6 ***LSB\r\n\r\n".to_string() + &module("A", &entries(&names(0, 1))) + "7 ***LEB";
    let mut cases = Vec::new();
    for place in 0..=file.len() {
        let (front, back) = file.split_at(place);
        let end = Step { rounds: Some(1), ..close(0, 0) };
        cases.push(case(format!("a file cut at {place}"), session([piece(front, 0), piece(back, 0)], end)));
    }
    for size in 1..=16 {
        let end = Step { rounds: Some(1), ..close(0, 0) };
        cases.push(case(format!("pieces of {size} bytes"), session(pieces(file.as_bytes(), size), end)));
    }
    cases
}

/// A file that is refused by each number of reading: in one piece, with its fault's LF apart, and byte by byte.
fn each_advice() -> Vec<Case> {
    let many = |name: &str| format!("3 ***TITLE\nA\n5 101 ***EXT\n{}", format!("{name}\n").repeat(65));
    let files = [
        ("6 ***LSB\n\t\n".to_string(), 6, 2, 1),
        (format!("\n\n{:81}\n", ""), 6, 3, 81),
        ("7 ***LEB\n".to_string(), 7, 1, 0),
        ("3 ***TITLE\nA\n1 ***END\nB\n".to_string(), 7, 4, 0),
        (many("B"), 8, 68, 0),
        ("6 ***LSB\r\n7 ***LEB 0\r\n".to_string(), 17, 2, 10),
        ("3 ***TITLE\nA\n0 1 0 ***CODE\n0 0 0 8\n".to_string(), 18, 4, 7),
        ("3 ***TITLE\n  a\n".to_string(), 19, 2, 3),
        ("\n2\n".to_string(), 20, 2, 1),
        ("3 ***TITLE\nA\n4 1 ***ENTRY\nA 0 2\n".to_string(), 21, 4, 5),
    ];
    let mut cases = Vec::new();
    for (file, number, line, column) in files {
        let (front, lf) = file.split_at(file.len() - 1);
        let end = || bad_close(number, line, column);
        let told = |bytes: &str| advised(bytes, number, line, column);
        let label = |how: &str| format!("advice {number} at line {line}, {how}");
        cases.push(case(label("in one piece"), session([told(&file), piece("\n2\n", 0)], end())));
        cases.push(case(label("its LF apart"), session([piece(front, 0), told(lf), piece("2\n", 0)], end())));
        cases.push(case(label("nothing behind it"), session([piece(front, 0)], end())));
        let bytes = pieces(front.as_bytes(), 1).into_iter().chain([told(lf), piece("\n", 0)]);
        cases.push(case(label("byte by byte"), session(bytes, end())));
        cases
            .push(case(label("and a drop"), [session([told(&file)], dropped(0)), vec![open(0), close(0, 0)]].concat()));
    }
    cases
}

/// Where the LF of a bad line stands in its piece.
fn borders() -> Vec<Case> {
    let told = |bytes: &str| advised(bytes, 20, 2, 1);
    let bad = |steps: &[Step]| session(steps.to_vec(), bad_close(20, 2, 1));
    let full = format!("{:>511}\n", "\n2");
    vec![
        case("an LF first in its piece", bad(&[piece("\n2", 0), told("\n6 ***LSB\n")])),
        case("an LF between", bad(&[piece("\n2", 0), told(" x\n\n")])),
        case("an LF last in its piece", bad(&[piece("\n2", 0), told(" x\n"), piece("\n", 0)])),
        case("an LF alone", bad(&[piece("\n2", 0), piece("", 0), told("\n"), piece("", 0)])),
        case("CR and LF in two pieces", bad(&[piece("\n2\r", 0), told("\n"), piece("\r\n", 0)])),
        case("CR LF in one piece", bad(&[piece("\n2", 0), told("\r\n")])),
        case("a good line cut between CR and LF", session(pieces(b"6 ***LSB\r\n7 ***LEB\r\n", 9), close(0, 0))),
        case("a line in three pieces", bad(&[piece("\n", 0), piece("2", 0), piece(" 3", 0), told(" 4\n")])),
        case("a line that ends where its piece does", bad(&[piece("\n", 0), told("2\n"), piece("2\n", 0)])),
        case(
            "a line of 81 bytes in two pieces",
            session([piece(" ".repeat(80), 0), piece(" ", 0), advised("\n", 6, 1, 81)], bad_close(6, 1, 81)),
        ),
        case(
            "the 512th byte is the LF",
            session([advised(full.replace(' ', "\n"), 20, 511, 1), piece("\n", 0)], bad_close(20, 511, 1)),
        ),
        case(
            "the LF behind 512 bytes",
            session(
                [piece(full.replace(' ', "\n").trim_end_matches('\n'), 0), piece("", 0), advised("\n", 20, 511, 1)],
                bad_close(20, 511, 1),
            ),
        ),
    ]
}

/// Of several faults the first is told, once.
fn first_fault() -> Vec<Case> {
    let end = || bad_close(20, 2, 1);
    vec![
        case("two bad lines in a piece", session([advised("\n2\n\t\n", 20, 2, 1), piece("\t\n", 0)], end())),
        case("two bad lines in two pieces", session([advised("\n2\n", 20, 2, 1), piece("\t\n7 ***LEB\n", 0)], end())),
        case("a bad line in parts, behind one", session([advised("\n2\n\t", 20, 2, 1), piece("\n", 0)], end())),
        case(
            "a bad line behind good ones",
            session(
                [piece(module("A", ""), 0), piece(module("B", ""), 0), advised("2\n", 20, 9, 1)],
                bad_close(20, 9, 1),
            ),
        ),
        case(
            "a bad line of a module, then its end",
            session([advised("3 ***TITLE\na\n", 19, 2, 1), piece("1 ***END\nA\n", 0)], bad_close(19, 2, 1)),
        ),
        case(
            "a fault of each load",
            [
                session([advised("2\n", 20, 1, 1)], bad_close(20, 1, 1)),
                vec![call(Call::Reset, 0, 0)],
                session([advised("\n\t\n", 6, 2, 1)], bad_close(6, 2, 1)),
            ]
            .concat(),
        ),
        case(
            "the same fault behind a drop",
            [session([advised("2\n", 20, 1, 1)], dropped(0)), session([advised("2\n", 20, 1, 1)], bad_close(20, 1, 1))]
                .concat(),
        ),
    ]
}

/// A last line without LF, and a file that ends too soon: the close alone tells them.
fn last_lines() -> Vec<Case> {
    vec![
        case("a bad last line without LF", session([piece("\n2", 0), piece("", 0)], bad_close(20, 2, 1))),
        case("a bad line that gets its LF", session([piece("2", 0), advised("\n", 20, 1, 1)], bad_close(20, 1, 1))),
        case(
            "a line that is bad until it goes on",
            session([piece("6", 0), piece(" ***LSB\n7 ***LEB", 0)], close(0, 0)),
        ),
        case(
            "a line that goes on to be bad",
            session([piece("6 ***LSB", 0), advised(" 0\n", 17, 1, 10)], bad_close(17, 1, 10)),
        ),
        case("a misplaced last line without LF", session([piece("7 ***LEB", 0)], close(7, 1))),
        case("a last CR", session([piece("6 ***LSB\n7 ***LEB\r", 0)], bad_close(20, 2, 3))),
        case("a last CR that gets its LF", session([piece("6 ***LSB\n7 ***LEB\r", 0), piece("\n", 0)], close(0, 0))),
        case("a file that ends in a section", session([piece("6 ***LSB\n", 0), piece("\n \n", 0)], close(7, 4))),
        case("a file that ends behind a TITLE", session([piece("3 ***TITLE\n", 0)], close(7, 2))),
        case("a file that ends in a module", session([piece("3 ***TITLE\nA", 0)], close(7, 3))),
        case(
            "a file that seemed to end too soon",
            session([piece("6 ***LSB\n", 0), piece("7 ***LEB\n", 0)], close(0, 0)),
        ),
    ]
}

/// A bad line whose LF is the 65,536th byte or the next, or whose piece goes over the total.
fn faults_at_the_limit() -> Vec<Case> {
    let blank = |bytes: usize| vec![b'\n'; bytes];
    let told = |bytes: &str, line| advised(bytes, 20, line, 1);
    let bad = |line| bad_close(20, line, 1);
    vec![
        case("a fault's LF is byte 65,535", [fed(blank(65_533)), told("2\n", 65_534), piece("\n", 0), bad(65_534)]),
        case("a fault's LF is byte 65,536", [fed(blank(65_534)), told("2\n", 65_535), piece("", 0), bad(65_535)]),
        case("the same, apart", [fed(blank(65_534)), piece("2", 0), told("\n", 65_535), bad(65_535)]),
        case("the same, then one more", [fed(blank(65_534)), told("2\n", 65_535), piece("\n", 0), close(5, 0)]),
        case("a fault's LF is byte 65,537", [fed(blank(65_535)), piece("2\n", 0), piece("\n", 0), close(5, 0)]),
        case("the same, apart", [fed(blank(65_535)), piece("2", 0), piece("\n", 0), close(5, 0)]),
        case("no LF at 65,536", [fed(blank(65_535)), piece("2", 0), bad(65_536)]),
        case("a fault in a piece that goes over", [fed(blank(65_533)), piece("2\n\n\n", 0), close(5, 0)]),
        case("the same by 512", [fed(blank(65_025)), piece("2\n".repeat(256), 0), piece("2\n", 0), close(5, 0)]),
        case("a fault in a piece to 65,536", [fed(blank(65_024)), told(&"2\n".repeat(256), 65_025), bad(65_025)]),
        case("a fault behind 65,537", [fed(blank(65_537)), piece("2\n", 0), close(5, 0)]),
        case(
            "a bad line of which a part goes over",
            [fed(blank(65_534)), piece("2 ", 0), piece(" \n", 0), close(5, 0)],
        ),
    ]
}

/// What a close leaves: the feed zero, and the state as a load does.
fn closes() -> Vec<Case> {
    let file = format!("{}{}", module("A", &externals(&names(0, 1))), section(&module("B", &entries(&names(0, 1)))));
    let searched = |rounds| Step { rounds: Some(rounds), ..close(0, 0) };
    let closed = session(pieces(file.as_bytes(), 10), searched(2));
    vec![
        case("nothing fed", session([], searched(0))),
        case("empty pieces alone", session([piece("", 0), piece("", 0)], searched(0))),
        case("a search", [closed.clone(), vec![symbol(0, "N0", Some(0)), symbols(1)]].concat()),
        case("one load after the other", [closed, session([piece(module("C", ""), 0)], searched(0))].concat()),
        case(
            "a refused close breaks",
            [session([piece("2", 0)], bad_close(20, 1, 1)), vec![base(0, 3)], session([], close(3, 0))].concat(),
        ),
        case("a drop breaks nothing", [session([advised("2\n", 20, 1, 1)], dropped(0)), vec![base(0, 0)]].concat()),
        case("a close of too many breaks nothing", vec![fed(vec![0; 65_537]), close(5, 0), base(0, 0), open(0)]),
    ]
}

/// The state's checks are made at the close alone, and the feed is zero behind them too.
fn closes_refused_by_the_state() -> Vec<Case> {
    let other_length = |state_cells| Step { state_cells, ..close(1, 0) };
    let other_work = |work_cells| call(Call::Close { work_cells }, 1, 0);
    let mark = |mark| Step::from(Call::Poke(vec![(MARK, mark)]));
    let pieces_then = |before: &[Step], end: Step| {
        let refused = session([advised("2\n", 20, 1, 1)], end.clone());
        let too_long = vec![fed(vec![b'2'; 65_537]), end.clone()];
        let empty = session([], end);
        [before.to_vec(), refused, too_long, empty, vec![close(23, 0), dropped(23)]].concat()
    };
    let mut cases = Vec::new();
    for cells in [0, 1, STATE_CELLS - 1, STATE_CELLS + 1, 2 * STATE_CELLS] {
        cases.push(case(format!("closed with {cells} cells of state"), pieces_then(&[], other_length(cells))));
    }
    for cells in [0, 1, WORK_CELLS - 1, WORK_CELLS + 1] {
        cases.push(case(format!("closed with {cells} cells of work"), pieces_then(&[], other_work(cells))));
        let both = Step { state_cells: 0, ..other_work(cells) };
        cases.push(case(format!("closed with {cells} cells of work and no state"), pieces_then(&[], both)));
    }
    for (content, number) in [(3, 2), (BROKEN, 3), (FROZEN, 4)] {
        cases.push(case(format!("closed on mark {content}"), pieces_then(&[mark(content)], close(number, 0))));
    }
    cases
}

/// A close loads from the state that is there then, whatever it was at the open.
fn other_states() -> Vec<Case> {
    let library = section(&module("L", &entries(&names(0, 1))));
    let code = module("C", &code(0, 1));
    let mark = |mark| Step::from(Call::Poke(vec![(MARK, mark)]));
    let close_of = |rounds| Step { rounds: Some(rounds), ..close(0, 0) };
    let reset = || call(Call::Reset, 0, 0);
    vec![
        case("forced before the close", session([piece(&*library, 0), force("N0", 0)], close_of(2))),
        case("forced and reset", session([force("N0", 0), piece(&*library, 0), reset()], close_of(1))),
        case(
            "BASE before the close",
            [session([piece(&*code, 0), base(64, 0)], close_of(0)), vec![memory(64)]].concat(),
        ),
        case(
            "a load in between",
            [session([piece(&*code, 0), load(&*code, 0, 0)], close_of(0)), vec![memory(1)]].concat(),
        ),
        case("broken in between", session([piece(&*code, 0), bad("2", 20, 1, 1)], close(3, 0))),
        case(
            "broken, then reset",
            [vec![bad("2", 20, 1, 1)], session([piece(&*code, 0), reset()], close_of(0))].concat(),
        ),
        case("frozen in between", session([piece(&*code, 0), end(65_535)], close(4, 0))),
        case("damaged in between", session([mark(3), piece("2", 0)], close(2, 0))),
        case("damaged, then mended", session([mark(3), piece(&*code, 0), mark(0)], close_of(0))),
        case("an advice on a broken state", session([mark(BROKEN), advised("2\n", 20, 1, 1)], close(3, 0))),
        case("a drop on a damaged state", session([mark(3), advised("2\n", 20, 1, 1)], dropped(0))),
    ]
}

/// Each refusal of the walk, by a close; no piece tells it.
fn walks() -> Vec<Case> {
    let word = |record: &str| format!("0 1 0 ***CODE\n{record}\n");
    let files = [
        (module("A", &code(4095, 2)), 9, 1),
        (module("A", &(code(0, 1) + &code(0, 1))), 10, 1),
        (module("A", &word("* 0 0 0 0 0 5 1")), 11, 1),
        (module("B", &code(0, 1)) + &module("A", "4 1 ***ENTRY\nA 177777 1 0\n"), 12, 7),
        (section(&module("A", &entries(&names(0, 1))).repeat(2)), 13, 1),
        ((0..5).map(|i| module("A", &entries(&names(64 * i, 64)))).collect(), 14, 277),
    ];
    let mut cases = Vec::new();
    for (file, number, line) in files {
        let steps = [session(pieces(file.as_bytes(), 100), close(number, line)), vec![base(0, 3)]].concat();
        cases.push(case(format!("{number} by a close"), steps));
    }
    cases
}
