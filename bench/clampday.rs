//! The yardstick: `clampday` again, in plain Rust, written from the scope alone.
//!
//!   clampday          reads one journal from standard input, prints its listing
//!   clampday --many   reads (u32 length, journal) until the end of input, and
//!                     writes (u32 length, listing) for each one
//!
//! Money is in cents, flow in hundredths of a MW; both are plain i64 here.

use std::array::from_fn;
use std::io::{self, ErrorKind, Read, Write};
use std::ops::{Range, RangeInclusive};

const RECORD: usize = 168;
const ISSUE: usize = 13;
const TRAILER: usize = 16;
const MOST_BYTES: usize = 65_536;
const MOST_RECORDS: usize = 288;
const MOST_PREFACE: usize = 1_024;
/// Digits of a number at most.
const MOST_DIGITS: usize = 20;
/// Room for a header and eight lines of a hundred bytes for each record.
const MOST_LISTING: usize = HEADER.len() + MOST_RECORDS * 8 * 100;
const LAST_INTERVAL: u32 = 1_051_199;

const PRICE: RangeInclusive<i32> = -100_000..=3_000_000;
const FLOW: RangeInclusive<i32> = -500_000..=500_000;
const LOSS: RangeInclusive<i32> = -100_000..=100_000;

const REVIEW: u8 = 1;
const LOOP: u8 = 2;
const PRE_DISPATCH: u8 = 4;
const UNBOUND: u8 = 0;
const VIOLATED: u8 = 2;
const BLOCKED: u8 = 4;

const GRAINS: i64 = 2_400_000;
const THRESHOLD: i64 = -10_000_000;
const RESUME: i64 = -100_000;
const SWAMPED: i64 = 2_000_000;
const CLAMP: RangeInclusive<i64> = 2_000..=1_000_000;

const HEADER: &str = "interval,direction,applies,amount,previous,current,next,clamp\n";
const NAMES: [&str; 8] = [
    "NSW1_QLD1",
    "QLD1_NSW1",
    "VIC1_NSW1",
    "NSW1_VIC1",
    "VIC1_SA1",
    "SA1_VIC1",
    "NSW1_SA1",
    "SA1_NSW1",
];

/// The numbers below a hundred, two digits each.
const PAIRS: &[u8; 200] = b"\
    0001020304050607080910111213141516171819\
    2021222324252627282930313233343536373839\
    4041424344454647484950515253545556575859\
    6061626364656667686970717273747576777879\
    8081828384858687888990919293949596979899";

/// Clamp steps by direction and band of net.
const STEPS: [[i64; 4]; 8] = [
    [-10_000, -5_000, 0, 3_000],
    [-10_000, -5_000, 0, 3_000],
    [-10_000, -5_000, 0, 3_000],
    [-10_000, -5_000, 0, 3_000],
    [-5_000, -3_000, 0, 3_000],
    [-3_000, -2_500, 0, 2_500],
    [-7_500, -4_000, 0, 3_000],
    [-7_500, -4_000, 0, 3_000],
];

/// A corridor runs between two regions over one or two physical lines.
struct Corridor {
    from: usize,
    to: usize,
    lines: Range<usize>,
}

const fn corridor(from: usize, to: usize, lines: Range<usize>) -> Corridor {
    Corridor { from, to, lines }
}

const CORRIDORS: [Corridor; 4] = [
    corridor(0, 1, 0..2),
    corridor(3, 0, 2..3),
    corridor(3, 2, 3..5),
    corridor(0, 2, 5..6),
];

/// The number of a refusal, as the scope lists them.
type Refusal = u8;

// ---------------------------------------------------------------- journal

fn u32_at(bytes: &[u8], at: usize) -> u32 {
    u32::from_le_bytes(bytes[at..at + 4].try_into().unwrap())
}

/// The part of the journal that holds its records.
fn read_journal(journal: &[u8]) -> Result<&[u8], Refusal> {
    if !(TRAILER..=MOST_BYTES).contains(&journal.len()) {
        return Err(11);
    }
    let start = journal.len() - TRAILER;
    let trailer = &journal[start..];
    let (count, distance) = (u32_at(trailer, 0) as usize, u32_at(trailer, 4) as usize);
    if count > MOST_RECORDS
        || distance != RECORD * count
        || distance > start
        || start - distance > MOST_PREFACE
    {
        return Err(12);
    }
    let records = &journal[start - distance..start];
    let (first, last) = match count {
        0 => (0, 0),
        _ => (u32_at(records, 0), u32_at(records, distance - RECORD)),
    };
    if (first, last) != (u32_at(trailer, 8), u32_at(trailer, 12)) {
        return Err(13);
    }
    let all = || records.chunks_exact(RECORD);
    if !all()
        .zip(all().skip(1))
        .all(|(before, after)| follows(before, after))
    {
        return Err(14);
    }
    Ok(records)
}

/// A higher issue of the same n, or the next n and any issue.
fn follows(before: &[u8], after: &[u8]) -> bool {
    let (n, next) = (u32_at(before, 0), u32_at(after, 0));
    n == next && before[ISSUE] < after[ISSUE] || n.checked_add(1) == Some(next)
}

// ----------------------------------------------------------------- record

/// What a physical line brings to its corridor. A pre-dispatch half-hour has
/// one flow; it stands as the target too, which is not used there.
struct Flow {
    a: i64,
    b: i64,
    target: i64,
}

/// One record, read where it stands in the journal.
#[derive(Clone, Copy)]
struct Record<'a>(&'a [u8; RECORD]);

impl Record<'_> {
    fn n(self) -> u32 {
        u32_at(self.0, 0)
    }

    fn has(self, flag: u8) -> bool {
        self.0[4] & flag != 0
    }

    fn status(self, direction: usize) -> u8 {
        self.0[5 + direction]
    }

    /// One of the 38 numbers: 4 prices, 6 x (metered, target, losses),
    /// 4 pre-dispatch prices, 6 x (flow, losses).
    fn number(self, place: usize) -> i32 {
        u32_at(self.0, 16 + 4 * place) as i32
    }

    fn price(self, region: usize) -> i64 {
        self.number(region).into()
    }

    fn flow(self, line: usize) -> Flow {
        let [metered, target, losses] = [4, 5, 6].map(|k| i64::from(self.number(k + 3 * line)));
        Flow {
            a: metered + target,
            b: 2 * losses,
            target,
        }
    }

    fn pre_dispatch_price(self, region: usize) -> i64 {
        self.number(22 + region).into()
    }

    fn pre_dispatch_flow(self, line: usize) -> Flow {
        let [flow, losses] = [26, 27].map(|k| i64::from(self.number(k + 2 * line)));
        Flow {
            a: 12 * flow,
            b: 12 * losses,
            target: flow,
        }
    }

    /// Refusals 2 to 8; the length is right by the way the journal is cut.
    fn check(self, awaited: u32) -> Result<(), Refusal> {
        if self.n() > LAST_INTERVAL {
            Err(2)
        } else if self.n() != awaited {
            Err(3)
        } else if !self.flags_fit() {
            Err(4)
        } else if (0..8).any(|direction| !matches!(self.status(direction), 0..=2 | 4..=6)) {
            Err(5)
        } else if !self.fit(0..4, &PRICE) {
            Err(6)
        } else if !(0..6).all(|line| self.line_fits(line)) {
            Err(7)
        } else if !self.pre_dispatch_fits() {
            Err(8)
        } else {
            Ok(())
        }
    }

    fn fit(self, mut places: Range<usize>, range: &RangeInclusive<i32>) -> bool {
        places.all(|place| range.contains(&self.number(place)))
    }

    /// No unknown flag, pre-dispatch in a half-hour's last interval only, and
    /// the two bytes after the issue zero.
    fn flags_fit(self) -> bool {
        self.0[4] <= REVIEW | LOOP | PRE_DISPATCH
            && (self.n() % 6 == 5 || !self.has(PRE_DISPATCH))
            && self.0[14..16] == [0; 2]
    }

    fn line_fits(self, line: usize) -> bool {
        let first = 4 + 3 * line;
        self.fit(first..first + 2, &FLOW) && self.fit(first + 2..first + 3, &LOSS)
    }

    fn pre_dispatch_line_fits(self, line: usize) -> bool {
        let first = 26 + 2 * line;
        self.fit(first..first + 1, &FLOW) && self.fit(first + 1..first + 2, &LOSS)
    }

    fn pre_dispatch_fits(self) -> bool {
        if self.has(PRE_DISPATCH) {
            self.fit(22..26, &PRICE) && (0..6).all(|line| self.pre_dispatch_line_fits(line))
        } else {
            self.fit(22..38, &(0..=0))
        }
    }
}

// ---------------------------------------------------------------- residue

/// What a corridor yields: its residue in cents goes to one of its two
/// directions; the target sum is counted from From to To.
#[derive(Clone, Copy, Default)]
struct Residue {
    to_from: bool,
    cents: i64,
    target: i64,
}

impl Residue {
    /// Of the four corridors.
    fn all(
        shares: &[i64; 6],
        price: impl Fn(usize) -> i64,
        flow: impl Fn(usize) -> Flow,
    ) -> [Residue; 4] {
        from_fn(|number| Residue::of(&CORRIDORS[number], shares, &price, &flow))
    }

    fn of(
        corridor: &Corridor,
        shares: &[i64; 6],
        price: impl Fn(usize) -> i64,
        flow: impl Fn(usize) -> Flow,
    ) -> Residue {
        let (from, to) = (price(corridor.from), price(corridor.to));
        let (mut grains, mut sum, mut target) = (0, 0, 0);
        for line in corridor.lines.clone() {
            let (Flow { a, b, target: t }, k) = (flow(line), shares[line]);
            grains += to * (1000 * a - (1000 - k) * b) - from * (1000 * a + k * b);
            sum += a;
            target += t;
        }
        Residue {
            to_from: sum < 0,
            cents: nearest_cent(grains),
            target,
        }
    }

    /// The residue of one of the corridor's two directions.
    fn in_direction(&self, to_from: bool) -> i64 {
        if self.to_from == to_from {
            self.cents
        } else {
            0
        }
    }
}

/// Halves go away from zero.
fn nearest_cent(grains: i64) -> i64 {
    (grains + grains.signum() * (GRAINS / 2)) / GRAINS
}

// ---------------------------------------------------------------- tracker

#[derive(Clone, Copy)]
struct Period {
    last: u32,
    extended: bool,
}

/// What an interval brings to one direction.
struct Input {
    n: u32,
    review: bool,
    flag: bool,
    residue: i64,
    next: i64,
    target: i64,
    status: u8,
}

#[derive(Clone, Copy)]
struct Direction {
    previous: i64,
    current: i64,
    net: i64,
    period: Option<Period>,
    clamp: i64,
    unbound: u8,
    violated: u8,
    suspended: bool,
}

impl Direction {
    const FRESH: Direction = Direction {
        previous: 0,
        current: 0,
        net: 0,
        period: None,
        clamp: SWAMPED,
        unbound: 0,
        violated: 0,
        suspended: false,
    };

    fn amount(&self) -> i64 {
        self.previous + self.current
    }

    fn applies(&self) -> bool {
        self.clamp != SWAMPED
    }

    /// One interval: rules 1 to 7.
    fn step(&mut self, steps: &[i64; 4], input: &Input) {
        self.add_up(input);
        let held = self.period.is_some();
        let reached = !input.review && self.amount() + input.next <= THRESHOLD;
        self.manage(input, reached);
        self.count(held, input.status & !BLOCKED);
        self.suspended = held
            && self.period.is_some()
            && self.net >= RESUME
            && (self.unbound == 3 || self.violated == 3 || self.suspended);
        let swamped = self.period.is_none() || self.suspended || input.status & BLOCKED != 0;
        self.clamp = if swamped {
            SWAMPED
        } else {
            let base = if self.applies() {
                self.clamp
            } else {
                input.target
            };
            (base + steps[band(self.net)]).clamp(*CLAMP.start(), *CLAMP.end())
        };
    }

    /// Rules 1 and 2: the sums.
    fn add_up(&mut self, input: &Input) {
        if input.n % 6 == 0 {
            self.previous += self.current;
            (self.current, self.net) = (0, 0);
        }
        if !input.flag {
            (self.previous, self.current, self.net) = (0, 0, 0);
            return;
        }
        self.current += input.residue.min(0);
        self.net += input.residue;
        if input.n % 6 == 5 && self.current == 0 {
            self.previous = 0;
        }
    }

    /// Rule 4: the period opens, is cut, is extended, ends.
    fn manage(&mut self, input: &Input, reached: bool) {
        let half_hour_end = input.n - input.n % 6 + 5;
        let Some(period) = &mut self.period else {
            if reached {
                self.period = Some(Period {
                    last: half_hour_end + 6,
                    extended: false,
                });
            }
            return;
        };
        if !input.flag {
            period.last = period.last.min(half_hour_end);
        } else if reached
            && (input.n == half_hour_end || period.last == half_hour_end && !period.extended)
        {
            period.last += 6;
            period.extended = true;
        }
        if period.last == input.n {
            self.period = None;
        }
    }

    /// Rule 5: unbound and violated intervals in a row.
    fn count(&mut self, held: bool, status: u8) {
        let counts = held && self.period.is_some() && self.applies() && self.current == 0;
        let after = |count: u8, wanted| {
            if counts && status == wanted {
                (count + 1).min(3)
            } else {
                0
            }
        };
        self.unbound = after(self.unbound, UNBOUND);
        self.violated = after(self.violated, VIOLATED);
    }
}

/// The column of the step table for net in cents.
fn band(net: i64) -> usize {
    match net {
        ..=-500_001 => 0,
        -500_000..=-100_001 => 1,
        -100_000..=99_999 => 2,
        100_000.. => 3,
    }
}

struct Tracker {
    awaited: u32,
    shares: [i64; 6],
    directions: [Direction; 8],
}

impl Tracker {
    fn open(first: u32, shares: [i64; 6]) -> Result<Tracker, Refusal> {
        if first > LAST_INTERVAL || first % 6 != 0 {
            return Err(9);
        }
        if shares.iter().any(|&share| share > 1000) {
            return Err(10);
        }
        Ok(Tracker {
            awaited: first,
            shares,
            directions: [Direction::FRESH; 8],
        })
    }

    /// Takes one record and appends the rows that the listing shows.
    fn interval(&mut self, record: Record, listing: &mut Vec<u8>) -> Result<(), Refusal> {
        record.check(self.awaited)?;
        self.awaited += 1;
        let shares = &self.shares;
        let residues = Residue::all(
            shares,
            |region| record.price(region),
            |line| record.flow(line),
        );
        let pre_dispatch = if record.has(PRE_DISPATCH) {
            let price = |region| record.pre_dispatch_price(region);
            Residue::all(shares, price, |line| record.pre_dispatch_flow(line))
        } else {
            [Residue::default(); 4]
        };
        let loop_sum: i64 = residues[1..].iter().map(|residue| residue.cents).sum();
        let exempt = record.has(LOOP) && loop_sum >= 0;
        for (number, direction) in self.directions.iter_mut().enumerate() {
            let (corridor, to_from) = (number / 2, number % 2 == 1);
            let flag = !(exempt && corridor > 0);
            let target = residues[corridor].target;
            let next = pre_dispatch[corridor].in_direction(to_from).min(0);
            let input = Input {
                n: record.n(),
                review: record.has(REVIEW),
                flag,
                residue: residues[corridor].in_direction(to_from),
                next: if flag { next } else { 0 },
                target: if to_from { -target } else { target },
                status: record.status(number),
            };
            direction.step(&STEPS[number], &input);
            push_row(listing, NAMES[number], direction, &input);
        }
        Ok(())
    }
}

// ---------------------------------------------------------------- listing

/// The digits of a number, from the last pair on, then the byte that ends it.
fn push_number(listing: &mut Vec<u8>, value: i64, end: u8) {
    let mut digits = [0; MOST_DIGITS];
    let mut start = MOST_DIGITS;
    let mut rest = value.unsigned_abs();
    while rest >= 10 {
        let pair = 2 * (rest % 100) as usize;
        start -= 2;
        digits[start..start + 2].copy_from_slice(&PAIRS[pair..pair + 2]);
        rest /= 100;
    }
    if rest > 0 || start == MOST_DIGITS {
        start -= 1;
        digits[start] = b'0' + rest as u8;
    }
    if value < 0 {
        listing.push(b'-');
    }
    listing.extend_from_slice(&digits[start..]);
    listing.push(end);
}

/// A row is shown if amount or next is negative, or a clamp applies.
fn push_row(listing: &mut Vec<u8>, name: &str, direction: &Direction, input: &Input) {
    let (amount, applies) = (direction.amount(), direction.applies());
    if amount >= 0 && input.next >= 0 && !applies {
        return;
    }
    push_number(listing, input.n.into(), b',');
    listing.extend_from_slice(name.as_bytes());
    listing.push(b',');
    for value in [
        applies.into(),
        amount,
        direction.previous,
        direction.current,
        input.next,
    ] {
        push_number(listing, value, b',');
    }
    push_number(listing, direction.clamp, b'\n');
}

/// The rows of a whole journal, up to its end or its first refusal. Issues of
/// one n rise, so the record to run is the last of its n.
fn push_rows(journal: &[u8], listing: &mut Vec<u8>) -> Result<(), Refusal> {
    let records = read_journal(journal)?;
    if records.is_empty() {
        return Ok(());
    }
    let mut tracker = Tracker::open(u32_at(records, 0), [500; 6])?;
    let mut records = records.chunks_exact(RECORD).peekable();
    while let Some(record) = records.next() {
        let same = |next: &&[u8]| u32_at(next, 0) == u32_at(record, 0);
        if !records.peek().is_some_and(same) {
            tracker.interval(Record(record.try_into().unwrap()), listing)?;
        }
    }
    Ok(())
}

/// The listing of a journal, put behind what the buffer holds already.
fn push_listing(journal: &[u8], listing: &mut Vec<u8>) {
    listing.extend_from_slice(HEADER.as_bytes());
    if let Err(number) = push_rows(journal, listing) {
        listing.extend_from_slice(b"refused,");
        push_number(listing, number.into(), b'\n');
    }
}

// ---------------------------------------------------------------- program

/// One journal; one byte more than fits is enough to refuse the rest.
fn one() -> io::Result<()> {
    let mut journal = Vec::with_capacity(MOST_BYTES + 1);
    io::stdin()
        .lock()
        .take(MOST_BYTES as u64 + 1)
        .read_to_end(&mut journal)?;
    let mut listing = Vec::with_capacity(MOST_LISTING);
    push_listing(&journal, &mut listing);
    io::stdout().write_all(&listing)
}

/// Many journals; each listing is sent before the next journal is read.
fn many() -> io::Result<()> {
    let (mut input, mut output) = (io::stdin().lock(), io::stdout().lock());
    let (mut journal, mut listing) = (Vec::new(), Vec::new());
    let mut length = [0; 4];
    loop {
        match input.read_exact(&mut length) {
            Err(error) if error.kind() == ErrorKind::UnexpectedEof => return Ok(()),
            other => other?,
        }
        journal.resize(u32::from_le_bytes(length) as usize, 0);
        input.read_exact(&mut journal)?;
        listing.clear();
        listing.extend_from_slice(&[0; 4]);
        push_listing(&journal, &mut listing);
        let size = (listing.len() - 4) as u32;
        listing[..4].copy_from_slice(&size.to_le_bytes());
        output.write_all(&listing)?;
        output.flush()?;
    }
}

fn main() -> io::Result<()> {
    match std::env::args().nth(1).as_deref() {
        None => one(),
        Some("--many") => many(),
        Some(_) => Err(io::Error::new(
            ErrorKind::InvalidInput,
            "usage: clampday [--many]",
        )),
    }
}
