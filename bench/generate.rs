//! Random journals from a seed, and the named journals for cost.
//!
//!   generate SEED COUNT   writes COUNT journals to standard output, each as
//!                         (u32 little-endian length, bytes)
//!   generate --cost DIR   writes empty, quiet and busy-36, -72, -144, -288
//!                         into DIR, as NAME.journal
//!
//! A day is made record by record. The sums of rules 1 and 2 are kept beside it,
//! so that a record can aim: at the threshold, at a band edge of net, at a loop
//! sum of zero, each exactly or one cent beside it. If these sums were wrong, the
//! aim would be off and nothing else.

use std::io::{self, BufWriter, Error, Write};

const LAST_INTERVAL: u32 = 1_051_199;
const PRICE: (i64, i64) = (-100_000, 3_000_000);
const FLOW: (i64, i64) = (-500_000, 500_000);
const LOSS: (i64, i64) = (-100_000, 100_000);
const THRESHOLD: i64 = -10_000_000;
const BAND_EDGES: [i64; 3] = [-500_000, -100_000, 100_000];

/// From region, To region, first line, number of lines.
const CORRIDORS: [(usize, usize, usize, usize); 4] =
    [(0, 1, 0, 2), (3, 0, 2, 1), (3, 2, 3, 2), (0, 2, 5, 1)];

// ----------------------------------------------------------------- chance

/// xorshift64*, seeded through splitmix so that near seeds give unlike journals.
struct Random(u64);

impl Random {
    fn new(seed: u64, number: u64) -> Random {
        let mut z = seed ^ number.wrapping_mul(0x9E37_79B9_7F4A_7C15);
        z = (z ^ z >> 30).wrapping_mul(0xBF58_476D_1CE4_E5B9);
        z = (z ^ z >> 27).wrapping_mul(0x94D0_49BB_1331_11EB);
        Random((z ^ z >> 31) | 1)
    }

    fn next(&mut self) -> u64 {
        self.0 ^= self.0 >> 12;
        self.0 ^= self.0 << 25;
        self.0 ^= self.0 >> 27;
        self.0.wrapping_mul(0x2545_F491_4F6C_DD1D) >> 11
    }

    fn below(&mut self, bound: usize) -> usize {
        (self.next() % bound as u64) as usize
    }

    fn between(&mut self, low: i64, high: i64) -> i64 {
        low + (self.next() % (high - low + 1) as u64) as i64
    }

    fn percent(&mut self, chance: u64) -> bool {
        self.next() % 100 < chance
    }

    fn pick<T: Copy>(&mut self, choices: &[T]) -> T {
        choices[self.below(choices.len())]
    }

    /// At a bound, one inside it, near zero, or anywhere between.
    fn edge(&mut self, (low, high): (i64, i64)) -> i32 {
        let anywhere = self.between(low, high);
        self.pick(&[low, low + 1, high - 1, high, -1, 0, 1, anywhere, anywhere]) as i32
    }
}

// ----------------------------------------------------------------- record

#[derive(Clone, Default)]
struct Record {
    n: u32,
    flags: u8,
    statuses: [u8; 8],
    issue: u8,
    zeros: [u8; 2],
    prices: [i32; 4],
    lines: [[i32; 3]; 6],
    pre_dispatch_prices: [i32; 4],
    pre_dispatch: [[i32; 2]; 6],
}

impl Record {
    fn push(&self, bytes: &mut Vec<u8>) {
        bytes.extend(self.n.to_le_bytes());
        bytes.push(self.flags);
        bytes.extend(self.statuses);
        bytes.push(self.issue);
        bytes.extend(self.zeros);
        let now = self.prices.iter().chain(self.lines.as_flattened());
        let pre_dispatch = self
            .pre_dispatch_prices
            .iter()
            .chain(self.pre_dispatch.as_flattened());
        for value in now.chain(pre_dispatch) {
            bytes.extend(value.to_le_bytes());
        }
    }

    /// The direction that a corridor's residue goes to, and the residue.
    fn residue(&self, corridor: usize) -> (usize, i64) {
        let (from, to, first, lines) = CORRIDORS[corridor];
        let (from, to) = (i64::from(self.prices[from]), i64::from(self.prices[to]));
        let (mut grains, mut flow) = (0, 0);
        for line in &self.lines[first..first + lines] {
            let [metered, target, losses] = line.map(i64::from);
            grains += 1000 * (to - from) * (metered + target) - 1000 * (to + from) * losses;
            flow += metered + target;
        }
        let cents = (grains + grains.signum() * 1_200_000) / 2_400_000;
        (2 * corridor + usize::from(flow < 0), cents)
    }

    fn loop_sum(&self) -> i64 {
        (1..4).map(|corridor| self.residue(corridor).1).sum()
    }
}

/// Preface, records and a right trailer.
fn journal(preface: &[u8], records: &[Record]) -> Vec<u8> {
    let mut bytes = preface.to_vec();
    records.iter().for_each(|record| record.push(&mut bytes));
    let ends = records.first().zip(records.last());
    let (first, last) = ends.map_or((0, 0), |(first, last)| (first.n, last.n));
    for number in [
        records.len() as u32,
        168 * records.len() as u32,
        first,
        last,
    ] {
        bytes.extend(number.to_le_bytes());
    }
    bytes
}

// -------------------------------------------------------------------- day

/// What the intervals of a run are like.
#[derive(Clone, Copy, Default)]
enum Pattern {
    #[default]
    Zero,
    Quiet,
    Mild,
    Steady,
    Wild,
    Threshold,
    Band,
    LoopSum,
    Halves,
}

impl Pattern {
    /// Intervals of a run at most: a mild spell may outlast three half-hours.
    fn longest(self) -> usize {
        match self {
            Pattern::Mild => 24,
            _ => 7,
        }
    }
}

/// What a journal draws its patterns from; one that stands twice comes more often.
const PATTERNS: [&[Pattern]; 8] = [
    &[
        Pattern::Steady,
        Pattern::Quiet,
        Pattern::Steady,
        Pattern::Zero,
    ],
    &[
        Pattern::Threshold,
        Pattern::Quiet,
        Pattern::Band,
        Pattern::Zero,
    ],
    &[
        Pattern::Threshold,
        Pattern::LoopSum,
        Pattern::Band,
        Pattern::Quiet,
    ],
    &[Pattern::Threshold, Pattern::Mild],
    &[Pattern::Steady, Pattern::Mild, Pattern::Threshold],
    &[Pattern::Wild, Pattern::Wild, Pattern::Zero, Pattern::Steady],
    &[
        Pattern::Halves,
        Pattern::Steady,
        Pattern::Threshold,
        Pattern::Zero,
    ],
    &[
        Pattern::Zero,
        Pattern::Quiet,
        Pattern::Mild,
        Pattern::Steady,
        Pattern::Wild,
        Pattern::Threshold,
        Pattern::Band,
        Pattern::LoopSum,
        Pattern::Halves,
    ],
];

/// A value that stays for a run of intervals.
#[derive(Clone, Copy, Default)]
struct Run<T> {
    value: T,
    left: usize,
}

impl<T: Copy> Run<T> {
    /// Of a run that is over another begins: `choose` gives its value, and how
    /// long it may be.
    fn next(&mut self, random: &mut Random, choose: impl Fn(&mut Random) -> (T, usize)) -> T {
        if self.left == 0 {
            let (value, longest) = choose(random);
            *self = Run {
                value,
                left: 1 + random.below(longest),
            };
        }
        self.left -= 1;
        self.value
    }
}

struct Day<'a> {
    random: &'a mut Random,
    patterns: &'static [Pattern],
    pattern: Run<Pattern>,
    focus: Run<usize>,
    review: Run<bool>,
    looped: Run<bool>,
    statuses: [Run<u8>; 8],
    blocks: [Run<bool>; 8],
    previous: [i64; 8],
    current: [i64; 8],
    net: [i64; 8],
}

impl<'a> Day<'a> {
    fn new(random: &'a mut Random) -> Day<'a> {
        Day {
            patterns: random.pick(&PATTERNS),
            random,
            pattern: Run::default(),
            focus: Run::default(),
            review: Run::default(),
            looped: Run::default(),
            statuses: Default::default(),
            blocks: Default::default(),
            previous: [0; 8],
            current: [0; 8],
            net: [0; 8],
        }
    }

    fn record(&mut self, n: u32) -> Record {
        let mut record = Record {
            n,
            ..Record::default()
        };
        let patterns = self.patterns;
        let pattern = self.pattern.next(self.random, |random| {
            let pattern = random.pick(patterns);
            (pattern, pattern.longest())
        });
        let focus = self.focus.next(self.random, |random| (random.below(8), 40));
        let present = n % 6 == 5 && self.random.percent(70);
        let review = self
            .review
            .next(self.random, |random| (random.percent(12), 12));
        let looped = self
            .looped
            .next(self.random, |random| (random.percent(40), 12));
        record.flags = u8::from(review) | u8::from(looped) << 1 | u8::from(present) << 2;
        for direction in 0..8 {
            let status = self.statuses[direction]
                .next(self.random, |random| (random.pick(&[0, 0, 1, 2, 2]), 6));
            let block = self.blocks[direction].next(self.random, |random| (random.percent(8), 10));
            record.statuses[direction] = status | u8::from(block) << 2;
        }
        if n % 6 == 0 {
            self.start_half_hour();
        }
        self.fill(&mut record, pattern, focus);
        self.add_up(&record);
        if present {
            self.fill_pre_dispatch(&mut record, pattern, focus);
        }
        record
    }

    /// Rule 1, on the sums kept beside the day.
    fn start_half_hour(&mut self) {
        for direction in 0..8 {
            self.previous[direction] += self.current[direction];
            (self.current[direction], self.net[direction]) = (0, 0);
        }
    }

    /// Rule 2, likewise.
    fn add_up(&mut self, record: &Record) {
        let exempt = record.flags & 2 != 0 && record.loop_sum() >= 0;
        for corridor in 0..4 {
            let (direction, cents) = record.residue(corridor);
            self.current[direction] += cents.min(0);
            self.net[direction] += cents;
        }
        for direction in 0..8 {
            let exempt = exempt && direction > 1;
            if exempt {
                (self.current[direction], self.net[direction]) = (0, 0);
            }
            if exempt || record.n % 6 == 5 && self.current[direction] == 0 {
                self.previous[direction] = 0;
            }
        }
    }

    fn fill(&mut self, record: &mut Record, pattern: Pattern, focus: usize) {
        match pattern {
            Pattern::Zero => {}
            Pattern::Quiet => self.fill_flows(record, 0),
            Pattern::Mild => {
                if self.random.percent(50) {
                    self.fill_flows(record, 0);
                }
            }
            Pattern::Steady => self.fill_flows(record, 65),
            Pattern::Wild => self.fill_wild(record),
            Pattern::Halves => self.fill_halves(record),
            Pattern::Threshold => {
                let missing = THRESHOLD + self.random.between(-1, 1)
                    - self.previous[focus]
                    - self.current[focus];
                let part = missing / self.random.between(2, 5);
                let small = -self.random.between(0, 200_000);
                let cents = self.random.pick(&[missing, missing, part, small]);
                self.aim(record, focus, if cents > 0 { small } else { cents });
            }
            Pattern::Band => {
                let edge = self.random.pick(&BAND_EDGES) + self.random.between(-1, 1);
                self.aim(record, focus, edge - self.net[focus]);
            }
            Pattern::LoopSum => self.fill_loop_sum(record),
        }
    }

    /// Ordinary prices; a flow runs against them with the chance given.
    fn fill_flows(&mut self, record: &mut Record, against: u64) {
        let top = self
            .random
            .pick(&[5_000, 30_000, 30_000, 300_000, 1_500_000]);
        let most = self.random.pick(&[3_000, 40_000, 40_000, 150_000]);
        let losses = if against > 0 {
            self.random.pick(&[0, 2_000])
        } else {
            0
        };
        record.prices = [0; 4].map(|_| self.random.between(-20_000, top) as i32);
        for (from, to, first, lines) in CORRIDORS {
            let towards = if record.prices[to] >= record.prices[from] {
                1
            } else {
                -1
            };
            let sign = if self.random.percent(against) {
                -towards
            } else {
                towards
            };
            for line in &mut record.lines[first..first + lines] {
                let [metered, target] =
                    [0; 2].map(|_| (sign * self.random.between(0, most)) as i32);
                *line = [metered, target, self.random.between(-losses, losses) as i32];
            }
        }
    }

    fn fill_wild(&mut self, record: &mut Record) {
        record.prices = [0; 4].map(|_| self.random.edge(PRICE));
        for line in &mut record.lines {
            *line = [
                self.random.edge(FLOW),
                self.random.edge(FLOW),
                self.random.edge(LOSS),
            ];
        }
    }

    /// Price gaps of odd times 1,200 and odd flows: half cents.
    fn fill_halves(&mut self, record: &mut Record) {
        let base = self.random.between(-20_000, 20_000);
        record.prices = [0; 4].map(|_| (base + 1_200 * self.random.between(-9, 9)) as i32);
        for line in &mut record.lines {
            *line = [0; 3].map(|_| self.random.between(-9, 9) as i32);
        }
    }

    /// Some flows round the loop, the last of them making its sum -1, 0 or 1.
    fn fill_loop_sum(&mut self, record: &mut Record) {
        self.fill_flows(record, 50);
        let (corridor, weight) = (
            1 + self.random.below(3),
            self.random.pick(&[-84, -40, 40, 84]),
        );
        self.set_prices(record, corridor, weight);
        let (_, _, first, lines) = CORRIDORS[corridor];
        record.lines[first..first + lines].fill([0; 3]);
        let cents = self.random.between(-1, 1) - record.loop_sum();
        if cents.abs() <= 900_000 * weight.abs() {
            self.set_flow(record, corridor, cents / weight, weight, cents);
        }
    }

    /// Gives the direction this residue, to the cent.
    fn aim(&mut self, record: &mut Record, direction: usize, cents: i64) {
        let (corridor, sign) = (direction / 2, if direction % 2 == 0 { 1 } else { -1 });
        let cents = cents.clamp(-75_000_000, 75_000_000);
        let least = cents.abs() / 900_000 + 1;
        let weight = sign * if cents < 0 { -1 } else { 1 } * self.random.between(least, 84);
        if self.random.percent(40) {
            self.fill_flows(record, 50);
            let (_, _, first, lines) = CORRIDORS[corridor];
            record.lines[first..first + lines].fill([0; 3]);
        }
        self.set_prices(record, corridor, weight);
        let flow = cents / weight;
        self.set_flow(
            record,
            corridor,
            if sign < 0 { flow.min(-1) } else { flow },
            weight,
            cents,
        );
    }

    /// To plus From is 2,400 and To minus From is 2,400 times the weight, so
    /// that the residue in cents is weight x flow - losses.
    fn set_prices(&mut self, record: &mut Record, corridor: usize, weight: i64) {
        let (from, to, _, _) = CORRIDORS[corridor];
        record.prices[from] = (1_200 * (1 - weight)) as i32;
        record.prices[to] = (1_200 * (1 + weight)) as i32;
    }

    /// Spreads a flow over a corridor's lines and over metered and target.
    fn set_flow(
        &mut self,
        record: &mut Record,
        corridor: usize,
        flow: i64,
        weight: i64,
        cents: i64,
    ) {
        let (_, _, first, lines) = CORRIDORS[corridor];
        let aside = if lines == 2 && self.random.percent(50) {
            self.random.between(-90_000, 90_000)
        } else {
            0
        };
        let parts = [flow + aside, -aside];
        for (line, part) in record.lines[first..first + lines].iter_mut().zip(parts) {
            let (near, far) = (
                self.random.between(-20_000, 20_000),
                self.random.edge(FLOW).into(),
            );
            let target = self.random.pick(&[part / 2, part / 2, near, far]);
            let target = target.clamp(FLOW.0.max(part - FLOW.1), FLOW.1.min(part - FLOW.0));
            *line = [(part - target) as i32, target as i32, 0];
        }
        record.lines[first][2] = (weight * flow - cents) as i32;
    }

    fn fill_pre_dispatch(&mut self, record: &mut Record, pattern: Pattern, focus: usize) {
        match pattern {
            Pattern::Zero => {}
            Pattern::Wild => {
                record.pre_dispatch_prices = [0; 4].map(|_| self.random.edge(PRICE));
                record.pre_dispatch =
                    [[0; 2]; 6].map(|_| [self.random.edge(FLOW), self.random.edge(LOSS)]);
            }
            Pattern::Threshold | Pattern::Band | Pattern::LoopSum | Pattern::Mild => {
                let missing = THRESHOLD + self.random.between(-1, 1)
                    - self.previous[focus]
                    - self.current[focus];
                self.aim_pre_dispatch(record, focus, missing);
            }
            Pattern::Quiet | Pattern::Steady | Pattern::Halves => {
                let top = self.random.pick(&[5_000, 30_000, 300_000]);
                record.pre_dispatch_prices =
                    [0; 4].map(|_| self.random.between(-20_000, top) as i32);
                record.pre_dispatch = [[0; 2]; 6].map(|_| {
                    [
                        self.random.between(-40_000, 40_000) as i32,
                        self.random.between(-900, 900) as i32,
                    ]
                });
            }
        }
    }

    /// The same aim for pre-dispatch, where a sixth of the prices will do.
    fn aim_pre_dispatch(&mut self, record: &mut Record, direction: usize, cents: i64) {
        let (from, to, first, _) = CORRIDORS[direction / 2];
        let sign = if direction % 2 == 0 { 1 } else { -1 };
        let cents = cents.clamp(-400_000_000, 400_000_000);
        let least = cents.abs() / 490_000 + 1;
        let weight = sign * if cents < 0 { -1 } else { 1 } * self.random.between(least, 900);
        record.pre_dispatch_prices[from] = (200 - 100 * weight) as i32;
        record.pre_dispatch_prices[to] = (200 + 100 * weight) as i32;
        let flow = if sign < 0 {
            (cents / weight).min(-1)
        } else {
            cents / weight
        };
        record.pre_dispatch[first] = [flow as i32, (weight * flow - cents) as i32];
    }
}

// ----------------------------------------------------------------- damage

/// Spoils one record in one way, or brings it right to an edge.
fn damage_record(random: &mut Random, record: &mut Record) {
    let beyond = |random: &mut Random, (low, high): (i64, i64)| {
        random.pick(&[
            low - 1,
            high + 1,
            low,
            high,
            i32::MIN.into(),
            i32::MAX.into(),
        ]) as i32
    };
    let (line, region) = (random.below(6), random.below(4));
    match random.below(15) {
        0 => record.flags |= 8 << random.below(5),
        1 => record.flags |= 4,
        2 => record.flags &= !4,
        3 => record.zeros[random.below(2)] = 1 + random.below(255) as u8,
        4 => record.statuses[random.below(8)] = random.pick(&[3, 7, 8, 9, 12, 128, 255]),
        5 => record.statuses[random.below(8)] = random.below(8) as u8,
        6 => record.prices[region] = beyond(random, PRICE),
        7 => record.lines[line][0] = beyond(random, FLOW),
        8 => record.lines[line][1] = beyond(random, FLOW),
        9 => record.lines[line][2] = beyond(random, LOSS),
        10 => record.pre_dispatch_prices[region] = beyond(random, PRICE),
        11 => record.pre_dispatch[line][0] = beyond(random, FLOW),
        12 => record.pre_dispatch[line][1] = beyond(random, LOSS),
        13 => record.pre_dispatch[line][random.below(2)] = random.pick(&[0, 1, -1]),
        _ => record.pre_dispatch_prices[region] = random.pick(&[0, 1, -1]),
    }
}

/// Spoils the order of n and issue; the trailer is made from the records afterwards.
fn damage_order(random: &mut Random, records: &mut Vec<Record>) {
    let (at, other) = (random.below(records.len()), random.below(records.len()));
    match random.below(8) {
        0 => drop(records.remove(at)),
        1 => records.insert(at, records[other].clone()),
        6 => {
            let again = records[at].clone();
            let higher = random.pick(&[0, 0, 1, 255]);
            records.insert(at, again);
            records[at + 1].issue = records[at].issue.wrapping_add(higher);
        }
        7 => records[at].issue = random.pick(&[0, 1, 255]),
        2 => records.swap(at, other),
        3 => records.reverse(),
        4 => records[at].n = random.pick(&[0, 1, LAST_INTERVAL, LAST_INTERVAL + 1, u32::MAX]),
        _ => {
            let start = random.pick(&[
                u32::MAX,
                u32::MAX - 3,
                LAST_INTERVAL + 1,
                LAST_INTERVAL + 7,
                1,
                5,
                7,
            ]);
            for (record, k) in records.iter_mut().zip(0..) {
                record.n = start.wrapping_add(k);
            }
        }
    }
}

/// Spoils one of the trailer's four numbers.
fn damage_trailer(random: &mut Random, bytes: &mut [u8]) {
    let at = bytes.len() - 16 + 4 * random.below(4);
    let number = u32::from_le_bytes(bytes[at..at + 4].try_into().unwrap());
    // 168 x 536,870,912 is 0 in 32 bits.
    let by = random.pick(&[1, 168, 536_870_912, u32::MAX, u32::MAX - 167]);
    let spoiled = random.pick(&[
        number.wrapping_add(by),
        number.wrapping_add(by),
        0,
        288,
        289,
        48_384,
    ]);
    bytes[at..at + 4].copy_from_slice(&spoiled.to_le_bytes());
}

/// Cuts or grows the journal at either end.
fn damage_length(random: &mut Random, bytes: &mut Vec<u8>) {
    let length = bytes.len();
    match random.below(6) {
        0 => bytes.truncate(length - 1 - random.below(length.min(200))),
        1 => bytes.truncate(random.below(18)),
        2 => drop(bytes.drain(..1 + random.below(length))),
        3 => bytes.resize(length + random.pick(&[1, 4, 16, 168]), 0),
        4 => {
            let wanted = random.pick(&[65_535, 65_536, 65_537, 70_000]);
            bytes.splice(..0, vec![0; wanted - length.min(wanted)]);
        }
        _ => bytes.resize(random.pick(&[65_536, 65_537, 65_552, 70_000]), 0),
    }
}

// ------------------------------------------------------------------ issues

/// Gives records an issue, and puts earlier issues of some n before them:
/// superseded ones, of which many would be refused.
fn reissue(random: &mut Random, records: Vec<Record>) -> Vec<Record> {
    let chance = random.pick(&[3, 20, 60]);
    let mut issued = Vec::new();
    for mut record in records {
        record.issue = random.pick(&[0, 1, 2, 7, 128, 254, 255]);
        if random.percent(chance) {
            let (first, most) = (issued.len(), 1 + random.below(3));
            let mut earlier = record.clone();
            while earlier.issue > 0 && issued.len() < first + most {
                earlier.issue = random.below(earlier.issue.into()) as u8;
                if random.percent(60) {
                    damage_record(random, &mut earlier);
                }
                issued.insert(first, earlier.clone());
            }
        }
        issued.push(record);
    }
    issued
}

// ---------------------------------------------------------------- journal

fn count_of_records(random: &mut Random) -> usize {
    match random.below(100) {
        0 => 0,
        1..=2 => 288,
        3..=4 => 61 + random.below(230),
        5..=49 => 1 + random.below(24),
        _ => 6 + random.below(55),
    }
}

/// One random journal. In two of five some intervals are issued again; about
/// one in four is damaged somewhere.
fn random_journal(random: &mut Random) -> Vec<u8> {
    let count = count_of_records(random);
    let near_end = LAST_INTERVAL as usize + 1 - 6 * (1 + random.below(12));
    let anywhere = 6 * random.below(175_200);
    let first = random.pick(&[0, 0, 6, anywhere, anywhere, near_end]);
    let overrun = random.percent(10);
    let count = if overrun {
        count
    } else {
        count.min(LAST_INTERVAL as usize + 1 - first)
    };
    let mut day = Day::new(random);
    let mut records: Vec<Record> = (first..first + count)
        .map(|n| day.record(n as u32))
        .collect();
    if random.percent(40) {
        records = reissue(random, records);
    }
    let count = records.len();
    let damage = if random.percent(25) {
        random.below(5)
    } else {
        9
    };
    if damage <= 1 && count > 0 {
        let (at, twice) = (random.below(count), random.below(count));
        damage_record(random, &mut records[at]);
        if random.percent(30) {
            let second = random.pick(&[at, twice]);
            damage_record(random, &mut records[second]);
        }
    } else if damage == 2 && count > 0 {
        damage_order(random, &mut records);
    }
    let preface = match random.below(20) {
        0 => random.pick(&[1, 2, 16, 168, 1023, 1024, 1025]),
        1 => random.below(1030),
        _ => 0,
    };
    let preface: Vec<u8> = (0..preface).map(|_| random.next() as u8).collect();
    let mut bytes = journal(&preface, &records);
    match damage {
        3 => damage_trailer(random, &mut bytes),
        4 => damage_length(random, &mut bytes),
        _ => {}
    }
    bytes
}

// ------------------------------------------------------------------- cost

/// Full lines and full pre-dispatch, every flow towards the higher price.
fn quiet_day() -> Vec<Record> {
    let record = |n: u32| {
        let present = n % 6 == 5;
        let flow = 20_000 + 100 * (n % 50) as i32;
        Record {
            n,
            flags: u8::from(present) << 2,
            statuses: [1; 8],
            prices: [9_000, 9_500, 9_500, 8_500],
            lines: [[flow, flow + 50, 100]; 6],
            pre_dispatch_prices: if present {
                [9_000, 9_500, 9_500, 8_500]
            } else {
                [0; 4]
            },
            pre_dispatch: if present {
                [[flow, 100]; 6]
            } else {
                [[0; 2]; 6]
            },
            ..Record::default()
        }
    };
    (0..288).map(record).collect()
}

/// Every flow runs against the price, one way at even n and back at odd n, so
/// that all eight directions stay in a period from the first half-hour on.
fn busy_day() -> Vec<Record> {
    let record = |n: u32| {
        let present = n % 6 == 5;
        let sign = if n % 2 == 0 { 1 } else { -1 };
        let flow = sign * (30_000 + 100 * (n % 50) as i32);
        let falling = [90_000, -90_000, -90_000, 270_000];
        let rising = [90_000, 270_000, 270_000, -90_000];
        let prices = if sign > 0 { falling } else { rising };
        Record {
            n,
            flags: u8::from(present) << 2,
            statuses: [1; 8],
            prices,
            lines: [[flow, flow + 50, 100]; 6],
            pre_dispatch_prices: if present { prices } else { [0; 4] },
            pre_dispatch: if present {
                [[flow, 100]; 6]
            } else {
                [[0; 2]; 6]
            },
            ..Record::default()
        }
    };
    (0..288).map(record).collect()
}

fn write_cost(directory: &str) -> io::Result<()> {
    let write = |name: &str, records: &[Record]| {
        std::fs::write(format!("{directory}/{name}.journal"), journal(&[], records))
    };
    write("empty", &[])?;
    write("quiet", &quiet_day())?;
    let busy = busy_day();
    for count in [36, 72, 144, 288] {
        write(&format!("busy-{count}"), &busy[..count])?;
    }
    let twice = |record: &Record| {
        [0, 1].map(|issue| Record {
            issue,
            ..record.clone()
        })
    };
    write(
        "reissued",
        &busy[..144].iter().flat_map(twice).collect::<Vec<_>>(),
    )
}

fn write_random(seed: u64, count: u64) -> io::Result<()> {
    let mut output = BufWriter::new(io::stdout().lock());
    for number in 1..=count {
        let journal = random_journal(&mut Random::new(seed, number));
        output.write_all(&(journal.len() as u32).to_le_bytes())?;
        output.write_all(&journal)?;
    }
    output.flush()
}

fn main() -> io::Result<()> {
    let arguments: Vec<String> = std::env::args().skip(1).collect();
    match arguments.iter().map(String::as_str).collect::<Vec<_>>()[..] {
        ["--cost", directory] => write_cost(directory),
        [seed, count] => match (seed.parse(), count.parse()) {
            (Ok(seed), Ok(count)) => write_random(seed, count),
            _ => Err(Error::other("SEED and COUNT are whole numbers")),
        },
        _ => Err(Error::other("usage: generate SEED COUNT | --cost DIR")),
    }
}
