// Makes what a case of a day is made of, hands it to the library in one call, and checks that all of it was accepted:
//
//     bench CASE LEDGER COUNT
//
// It writes how many lines and rows there were, and how many seconds the call took.

use std::time::Instant;

#[repr(C)]
struct Setup {
    family: u64,
    ledger: u64,
    size: u64,
    date: u64,
    first: u64,
    unit: u64,
    clock: u64,
    figures: u64,
    verdicts: u64,
}

#[repr(C)]
#[derive(Debug, PartialEq)]
struct Came {
    opened: u64,
    totals: u64,
    earlier: u64,
    lines: u64,
    rows: u64,
    figures: u64,
    verdicts: u64,
}

unsafe extern "C" {
    fn grapewinch_day(
        setup: &Setup,
        broker: *const u8,
        broker_length: usize,
        totals: *const u8,
        totals_length: usize,
        earlier: *const u8,
        earlier_length: usize,
        lines: *const u8,
        lines_length: usize,
        replies: *mut u8,
        replies_length: usize,
    ) -> Came;
}

fn make_day(setup: &Setup, totals: &[u8], earlier: &[u8], lines: &[u8]) -> Came {
    // room for the 22 pieces that a filing has at most
    let mut replies = vec![0; 22 * 200];
    // Each pointer is to as many bytes as are told, and nobody else has the buffer.
    unsafe {
        grapewinch_day(
            setup,
            BROKER.as_ptr(),
            BROKER.len(),
            totals.as_ptr(),
            totals.len(),
            earlier.as_ptr(),
            earlier.len(),
            lines.as_ptr(),
            lines.len(),
            replies.as_mut_ptr(),
            replies.len(),
        )
    }
}

const BROKER: &str = "9801";
const DATE: u64 = 20_240_102;
const GROUPS: usize = 64;
const UNIT: u64 = 1000;

#[derive(Clone, Copy, PartialEq)]
enum Family {
    Plan,
    Omnibus,
}

impl Family {
    // The bytes that name a group: account, security and side.
    fn group(self, number: usize) -> String {
        let account = if self == Family::Plan { "8477771" } else { "8855551" };
        format!("{account}{:<6}B", 2300 + number)
    }

    fn line(self, filing: &Filing, code: char) -> String {
        let Filing { group, order, quantity, cents } = *filing;
        let heading = format!("{BROKER}{}0{DATE}{}", self.group(group), order_number(order));
        let figures = format!("0123456{quantity:08}{cents:014}00");
        let line = match self {
            Family::Plan => format!("{heading}9801{figures}{code}"),
            Family::Omnibus => format!("{heading}{figures}0{code}"),
        };
        format!("{line:<200}")
    }

    fn total(self, group: usize, quantity: u64, cents: u64) -> String {
        let row = format!("{BROKER}{}0{DATE}{quantity:08}{cents:014}00", self.group(group));
        format!("{row:<80}")
    }
}

// Five of A-Z and 0-9.
fn order_number(n: usize) -> String {
    let place = |k: u32| b"ABCDEFGHIJKLMNOPQRSTUVWXYZ0123456789"[n / 36usize.pow(k) % 36] as char;
    (0..5).rev().map(place).collect()
}

#[derive(Clone, Copy)]
struct Filing {
    group: usize,
    order: usize,
    quantity: u64,
    cents: u64,
}

// The n-th filing of two pieces, its group in turn: 3 units for 150,010.00, 2 at 50.00 and 1 at 50.01.
fn two_pieces(n: usize) -> Filing {
    Filing { group: n % GROUPS, order: n, quantity: 3, cents: 15_001_000 }
}

// A filing of 22 pieces: 10,000 units for 500,000,010.00. 9,999 units at 50.00 are 20 pieces of 499 and one of 19, and one unit is at 50.01.
fn many_pieces(n: usize) -> Filing {
    Filing { group: n % GROUPS, order: n, quantity: 10_000, cents: 50_000_001_000 }
}

// What a case is made of, and what should come of it.
struct Case {
    family: Family,
    // whether the totals are what is filed, so that every group is complete, or as much as a group can have
    complete: bool,
    earlier: Vec<Filing>,
    lines: Vec<(Filing, char)>,
    rows: usize,
    figures: u64,
    verdicts: u64,
}

impl Case {
    fn of(name: &str, count: usize) -> Case {
        let mut case = Case {
            family: Family::Plan,
            complete: false,
            earlier: (0..count / 2).map(two_pieces).collect(),
            lines: Vec::new(),
            rows: count,
            figures: 0,
            verdicts: 0,
        };
        match name {
            "filing" => {
                case.lines.push((two_pieces(count / 2), '1'));
                case.rows += 2;
            }
            "omnibus" => {
                case.family = Family::Omnibus;
                case.lines.push((many_pieces(count / 2), '1'));
                case.rows += 22;
            }
            "figures" => case.figures = 1,
            "verdict" => {
                case.complete = true;
                case.verdicts = 1;
            }
            "filings" | "refilings" => {
                case.earlier.clear();
                (case.lines, case.rows) = filings(count, name == "refilings");
            }
            _ => panic!("{name} is no case"),
        }
        case
    }
}

// So many filings of two pieces, and how many rows are left of them. With deletions, after each hundred the rows of one group are taken out,
// the groups in turn, and one filing goes to it anew.
fn filings(count: usize, deletions: bool) -> (Vec<(Filing, char)>, usize) {
    let mut lines = Vec::new();
    let mut rows = [0; GROUPS];
    for n in 0..count {
        let filing = two_pieces(n);
        lines.push((filing, '1'));
        rows[filing.group] += 2;
        if deletions && n % 100 == 99 {
            let anew = Filing { group: n / 100 % GROUPS, ..two_pieces(count + n) };
            lines.push((anew, '2'));
            lines.push((anew, '1'));
            rows[anew.group] = 2;
        }
    }
    (lines, rows.iter().sum())
}

// The totals of the groups: a quantity of trading units, and an amount in cents.
fn totals(case: &Case) -> Vec<(u64, u64)> {
    if !case.complete {
        return vec![(99_999, 99_999_999_999_999); GROUPS];
    }
    let mut totals = vec![(0, 0); GROUPS];
    for filing in &case.earlier {
        totals[filing.group].0 += filing.quantity;
        totals[filing.group].1 += filing.cents;
    }
    totals
}

fn main() {
    let words: Vec<String> = std::env::args().skip(1).collect();
    let [name, ledger, count] = words.as_slice() else { panic!("bench CASE LEDGER COUNT") };
    let case = Case::of(name, count.parse().expect("a count"));
    let family = case.family;
    let pieces: usize = case.earlier.len() * 2 + case.lines.iter().map(|(f, _)| if f.quantity > 499 { 22 } else { 2 }).sum::<usize>();
    let (ledger, size) = match ledger.as_str() {
        "table" => (0, pieces),
        "blocks" => (1, pieces.div_ceil(7) * 512),
        "table+index" => (2, pieces),
        "blocks+index" => (3, pieces.div_ceil(7) * 512),
        _ => panic!("{ledger} is no ledger"),
    };
    let setup = Setup {
        family: (family == Family::Omnibus) as u64,
        ledger,
        size: size as u64,
        date: DATE,
        first: 1,
        unit: UNIT,
        clock: 150_000,
        figures: case.figures,
        verdicts: case.verdicts,
    };
    let totals = totals(&case);
    let rows: String = totals.iter().enumerate().map(|(n, (quantity, cents))| family.total(n, *quantity, *cents)).collect();
    let earlier: String = case.earlier.iter().map(|filing| family.line(filing, '1')).collect();
    let lines: String = case.lines.iter().map(|(filing, code)| family.line(filing, *code)).collect();
    let filed: u64 = case.earlier.iter().filter(|filing| filing.group == 0).map(|filing| filing.quantity).sum();
    let wanted = Came {
        opened: 1,
        totals: GROUPS as u64,
        earlier: case.earlier.len() as u64,
        lines: case.lines.len() as u64,
        rows: case.rows as u64,
        figures: case.figures * (totals[0].0 - filed) * UNIT,
        verdicts: case.verdicts * 2,
    };
    let begin = Instant::now();
    let came = make_day(&setup, rows.as_bytes(), earlier.as_bytes(), lines.as_bytes());
    let seconds = begin.elapsed().as_secs_f64();
    assert_eq!(came, wanted, "all is accepted");
    println!("{} {} {seconds:.2}", came.lines, came.rows);
}
