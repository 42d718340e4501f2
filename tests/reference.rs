// Document 01 and the changes of document 02 in plain Rust, written from the pages alone: what the call with a file, the allocation on numbers and the spare lookup answer,
// and what the program prints. The random inputs compare the proved planner with it, and the benchmark times both.

const FILE_BYTES: usize = 32_768;
const ENGINES: usize = 12;
/// K7: "a 38th is refused by 7".
pub const DELIVERIES: usize = 37;
pub const TABLE_NUMBERS: usize = ENGINES * DELIVERIES;
pub const SPARE_NUMBERS: usize = ENGINES;
/// The last minute that MINUTES, FROM and TO may name.
const WEEK: u64 = 10_080;
/// K1: "at most eight spans an engine".
const SPANS: usize = 8;
/// No print is longer: an answer's line, and for every piece a line with two names of 16 quotes each.
pub const PRINT_BYTES: usize = 40 + TABLE_NUMBERS * 88;

const FOUND: u64 = 0;
const NONE: u64 = 1;
const STOPPED: u64 = 2;

#[derive(Clone, Copy, PartialEq, Eq, Debug)]
pub enum Answer {
    /// The word is 0 for found, 1 for none, 2 for stopped; the length is the print's, 0 on numbers.
    Answered { word: u64, minutes: u64, tries: u64, length: usize },
    Refused { number: u64, record: u64 },
}

/// The call with a file.
pub fn plan_file(file: &[u8], table: &mut [u64], spare: &mut [u64], output: &mut [u8]) -> Answer {
    let plan = match read_plan(file) {
        Ok(plan) => plan,
        Err((number, record)) => return Answer::Refused { number, record },
    };
    if table.len() != TABLE_NUMBERS || spare.len() != SPARE_NUMBERS {
        return Answer::Refused { number: 9, record: 0 };
    }
    let search = solve(&plan);
    let mut length = 0;
    print(&plan, &search, &mut |bytes| length += bytes.len());
    if length > output.len() {
        return Answer::Refused { number: 9, record: 0 };
    }
    let mut at = 0;
    print(&plan, &search, &mut |bytes| {
        output[at..at + bytes.len()].copy_from_slice(bytes);
        at += bytes.len();
    });
    search.write(table, spare);
    Answer::Answered { word: search.word, minutes: search.minutes, tries: search.tries, length }
}

/// A plan on numbers, with the mode as a number: 0 is fixed, 1 shortest.
pub struct Numbers<'a> {
    pub mode: u64,
    pub minutes: u64,
    pub allowance: u64,
    pub watts: &'a [u64],
    pub fuels: &'a [u64],
    pub energies: &'a [u64],
    pub limits: &'a [u64],
    /// K1's further list: engine counted from 1, FROM and TO of one span after the other.
    pub quiet: &'a [u64],
}

/// The allocation on numbers.
#[allow(dead_code)]
pub fn allocate(numbers: &Numbers, table: &mut [u64], spare: &mut [u64]) -> Answer {
    if let Some((number, record)) = numbers.refusal(table.len(), spare.len()) {
        return Answer::Refused { number, record };
    }
    let mut plan = Plan::new();
    plan.shortest = numbers.mode == 1;
    plan.minutes = numbers.minutes;
    plan.allowance = numbers.allowance;
    plan.engines = numbers.watts.len();
    plan.watts[..plan.engines].copy_from_slice(numbers.watts);
    plan.fuels[..plan.engines].copy_from_slice(numbers.fuels);
    plan.deliveries = numbers.energies.len();
    plan.energies[..plan.deliveries].copy_from_slice(numbers.energies);
    plan.limits[..plan.deliveries].copy_from_slice(numbers.limits);
    plan.quiet = numbers.spans();
    let search = solve(&plan);
    search.write(table, spare);
    Answer::Answered { word: search.word, minutes: search.minutes, tries: search.tries, length: 0 }
}

impl Numbers<'_> {
    fn spans(&self) -> Vec<Span> {
        // An engine of 0 is none of the plan's, and neither is the largest number.
        self.quiet.chunks(3).map(|three| Span { engine: three[0].wrapping_sub(1), from: three[1], to: three[2] }).collect()
    }

    /// 3, 8, 7, 9, then 6 over the plan's record, the engines' and the deliveries', then the spans; MODE stands in the plan's record.
    fn refusal(&self, table: usize, spare: usize) -> Option<(u64, u64)> {
        let (engines, deliveries) = (self.watts.len(), self.energies.len());
        if self.fuels.len() != engines || self.limits.len() != deliveries || self.quiet.len() % 3 != 0 {
            return Some((3, 0));
        }
        if engines == 0 {
            return Some((8, 0));
        }
        if engines > ENGINES || deliveries > DELIVERIES {
            return Some((7, 0));
        }
        if table != deliveries * engines || spare != engines {
            return Some((9, 0));
        }
        let plan = self.mode <= 1 && (1..=WEEK).contains(&self.minutes) && self.allowance <= 1_000_000_000;
        let engine = |i: usize| self.watts[i] <= 5_000_000 && self.fuels[i] <= 1_000_000_000;
        let delivery = |p: usize| (1..=1_000_000_000).contains(&self.energies[p]) && (1..=12).contains(&self.limits[p]);
        let sound = std::iter::once(plan).chain((0..engines).map(engine)).chain((0..deliveries).map(delivery));
        let fault = sound.zip(1..).find(|(sound, _)| !sound).map(|(_, record)| (6, record));
        fault.or_else(|| self.span_refusal().map(|number| (number, 0)))
    }

    /// K1: "checked last, span by span, by 6 (FROM, TO), 10 (no such engine), 11, place 0".
    fn span_refusal(&self) -> Option<u64> {
        let spans = self.spans();
        (0..spans.len()).find_map(|k| match &spans[k] {
            span if span.from > WEEK || span.to > WEEK => Some(6),
            span if span.engine >= self.watts.len() as u64 => Some(10),
            span if !span.may_follow(&spans[..k]) => Some(11),
            _ => None,
        })
    }
}

#[derive(Clone, Copy, PartialEq, Eq, Debug)]
#[allow(dead_code)]
pub enum Lookup {
    /// Counted from 0.
    Engine(usize),
    Nowhere,
    Refused { number: u64, record: u64 },
}

/// Whether the spare lookup may answer so: which of several engines it names is open.
#[allow(dead_code)]
pub fn permits(spare: &[u64], amount: u64, answer: Lookup) -> bool {
    let refused = match spare.len() {
        0 => 8,
        count if count > ENGINES => 7,
        _ if amount < 1 || amount > 1_000_000_000 => 6,
        _ => 0,
    };
    match answer {
        Lookup::Refused { number, record } => number == refused && refused > 0 && record == 0,
        Lookup::Engine(i) => refused == 0 && i < spare.len() && spare[i] >= amount,
        Lookup::Nowhere => refused == 0 && spare.iter().all(|most| *most < amount),
    }
}

/// What the program prints for its standard input.
#[allow(dead_code)]
pub fn program_print(input: &[u8]) -> Vec<u8> {
    let mut output = vec![0; PRINT_BYTES];
    match plan_file(input, &mut [0; TABLE_NUMBERS], &mut [0; SPARE_NUMBERS], &mut output) {
        Answer::Answered { length, .. } => {
            output.truncate(length);
            output
        }
        Answer::Refused { number, record } => format!("refused,{number},{record},0\r\n").into_bytes(),
    }
}

// Reading

/// A name's bytes, and zeros behind them: a name holds no zero, so equal names are equal arrays.
type Name = [u8; 16];

/// Minutes in which an engine stands still, FROM included and TO excluded. Engines are counted from 0.
#[derive(Clone, Copy, Debug)]
pub struct Span { pub engine: u64, pub from: u64, pub to: u64 }

impl Span {
    /// K1's 11 does not speak against it: FROM is below TO, no earlier span of its engine has a minute of it, and it is not the ninth.
    fn may_follow(&self, earlier: &[Span]) -> bool {
        let own = || earlier.iter().filter(|span| span.engine == self.engine);
        let overlaps = |span: &Span| span.from < self.to && self.from < span.to;
        self.from < self.to && !own().any(overlaps) && own().count() < SPANS
    }
}

struct Plan {
    shortest: bool,
    minutes: u64,
    allowance: u64,
    engines: usize,
    engine_names: [Name; ENGINES],
    watts: [u64; ENGINES],
    fuels: [u64; ENGINES],
    deliveries: usize,
    delivery_names: [Name; DELIVERIES],
    energies: [u64; DELIVERIES],
    limits: [u64; DELIVERIES],
    quiet: Vec<Span>,
}

/// Four fields are kept, all are counted. A quoted field is kept without its quotes, and a quote in it stays doubled.
struct Record<'a> { fields: [&'a [u8]; 4], count: usize, next: usize }

fn is_text(byte: u8) -> bool {
    matches!(byte, 0x20..=0x21 | 0x23..=0x2B | 0x2D..=0x7E)
}

/// The field that begins at `start` and the place behind it, or None where an escaped field breaks the grammar.
fn read_field(file: &[u8], start: usize) -> Option<(&[u8], usize)> {
    let rest = &file[start..];
    if rest.first() != Some(&b'"') {
        let length = rest.iter().position(|byte| !is_text(*byte)).unwrap_or(rest.len());
        return Some((&rest[..length], start + length));
    }
    let mut at = 1;
    loop {
        match *rest.get(at)? {
            b'"' if rest.get(at + 1) == Some(&b'"') => at += 2,
            b'"' => return Some((&rest[1..at], start + at + 1)),
            0x20..=0x7E | b'\r' | b'\n' => at += 1,
            _ => return None,
        }
    }
}

/// The record that begins at `start`, or None where it breaks RFC 4180. Quotes need no counting: up to the first byte against the grammar
/// their number is odd just inside an escaped field, and that byte is in this record because no CR LF outside quotes came before it.
fn read_record(file: &[u8], start: usize) -> Option<Record<'_>> {
    let mut record = Record { fields: [&[]; 4], count: 0, next: start };
    loop {
        let (field, end) = read_field(file, record.next)?;
        if let Some(place) = record.fields.get_mut(record.count) {
            *place = field;
        }
        record.count += 1;
        match file[end..] {
            [b',', ..] => record.next = end + 1,
            [b'\r', b'\n', ..] => return Some(Record { next: end + 2, ..record }),
            [] => return Some(Record { next: end, ..record }),
            _ => return None,
        }
    }
}

/// The plan, or the refusal's number and record.
fn read_plan(file: &[u8]) -> Result<Plan, (u64, u64)> {
    if file.is_empty() || file.len() > FILE_BYTES {
        return Err((1, 0));
    }
    let mut plan = Plan::new();
    let (mut start, mut count) = (0, 0);
    while start < file.len() {
        count += 1;
        start = plan.add_record(file, start, count == 1).map_err(|number| (number, count))?;
    }
    if plan.engines == 0 { Err((8, 0)) } else { Ok(plan) }
}

/// The spans of a file that is accepted.
#[allow(dead_code)]
pub fn spans_of(file: &[u8]) -> Vec<Span> {
    read_plan(file).map_or(Vec::new(), |plan| plan.quiet)
}

impl Plan {
    fn new() -> Plan {
        Plan {
            shortest: false, minutes: 0, allowance: 0,
            engines: 0, engine_names: [[0; 16]; ENGINES], watts: [0; ENGINES], fuels: [0; ENGINES],
            deliveries: 0, delivery_names: [[0; 16]; DELIVERIES], energies: [0; DELIVERIES], limits: [0; DELIVERIES],
            quiet: Vec::new(),
        }
    }

    /// Takes the record at `start` into the plan and gives the place of the next one, or the refusal's number.
    fn add_record(&mut self, file: &[u8], start: usize, first: bool) -> Result<usize, u64> {
        let record = read_record(file, start).ok_or(2u64)?;
        if record.count != 4 {
            return Err(3);
        }
        let [kind, fields @ ..] = record.fields;
        match (kind, first) {
            (b"plan", true) => self.set(fields)?,
            (b"engine", false) => self.add_engine(fields)?,
            (b"delivery", false) => self.add_delivery(fields)?,
            (b"quiet", false) => self.add_quiet(fields)?,
            _ => return Err(4),
        }
        Ok(record.next)
    }

    fn set(&mut self, [mode, minutes, tries]: [&[u8]; 3]) -> Result<(), u64> {
        self.shortest = match mode {
            b"fixed" => false,
            b"shortest" => true,
            _ => return Err(6),
        };
        self.minutes = number(minutes, 1, WEEK)?;
        self.allowance = number(tries, 0, 1_000_000_000)?;
        Ok(())
    }

    fn add_engine(&mut self, [title, watts, fuel]: [&[u8]; 3]) -> Result<(), u64> {
        let i = self.engines;
        if i == ENGINES {
            return Err(7);
        }
        self.engine_names[i] = fresh_name(title, &self.engine_names[..i])?;
        self.watts[i] = number(watts, 0, 5_000_000)?;
        self.fuels[i] = number(fuel, 0, 1_000_000_000)?;
        self.engines += 1;
        Ok(())
    }

    fn add_delivery(&mut self, [title, energy, limit]: [&[u8]; 3]) -> Result<(), u64> {
        let p = self.deliveries;
        if p == DELIVERIES {
            return Err(7);
        }
        self.delivery_names[p] = fresh_name(title, &self.delivery_names[..p])?;
        self.energies[p] = number(energy, 1, 1_000_000_000)?;
        self.limits[p] = number(limit, 1, 12)?;
        self.deliveries += 1;
        Ok(())
    }

    /// K1: 10 "in the place of 5, the named engine isn't earlier in the file", then the numbers, and 11 "after all fields". What breaks the
    /// name rule names nobody.
    fn add_quiet(&mut self, [title, from, to]: [&[u8]; 3]) -> Result<(), u64> {
        let named = name(title).and_then(|name| self.engine_names[..self.engines].iter().position(|other| *other == name));
        let engine = named.ok_or(10u64)? as u64;
        let span = Span { engine, from: number(from, 0, WEEK)?, to: number(to, 0, WEEK)? };
        if !span.may_follow(&self.quiet) {
            return Err(11);
        }
        self.quiet.push(span);
        Ok(())
    }

    /// K1: "Capacity counts only the minutes before T outside the engine's spans." No two of them overlap, so what each has before T is taken
    /// off; with debug assertions, as in the random tests, the minutes are counted one by one as well.
    fn running(&self, engine: usize, minutes: u64) -> u64 {
        let own = || self.quiet.iter().filter(|span| span.engine == engine as u64);
        let still: u64 = own().map(|span| span.to.min(minutes) - span.from.min(minutes)).sum();
        debug_assert_eq!(minutes - still, match own().next() {
            Some(_) => (0..minutes).filter(|minute| own().all(|span| *minute < span.from || span.to <= *minute)).count() as u64,
            None => minutes,
        });
        minutes - still
    }
}

/// A name that the rule allows and that nobody of `used` has.
fn fresh_name(field: &[u8], used: &[Name]) -> Result<Name, u64> {
    name(field).filter(|name| !used.contains(name)).ok_or(5)
}

/// The name that a field gives, or None where it has no byte, more than 16, or one that no name may have.
fn name(field: &[u8]) -> Option<Name> {
    let mut name = [0; 16];
    let (mut at, mut length) = (0, 0);
    while at < field.len() {
        let byte = field[at];
        if length == name.len() || !(0x20..=0x7E).contains(&byte) {
            return None;
        }
        name[length] = byte;
        length += 1;
        at += if byte == b'"' { 2 } else { 1 };
    }
    if length == 0 { None } else { Some(name) }
}

fn number(field: &[u8], low: u64, high: u64) -> Result<u64, u64> {
    // Above ten digits is out of every range.
    if field.is_empty() || field.len() > 10 || !field.iter().all(u8::is_ascii_digit) || field[0] == b'0' && field.len() > 1 {
        return Err(6);
    }
    let value = field.iter().fold(0, |value, digit| value * 10 + u64::from(digit - b'0'));
    if value < low || value > high { Err(6) } else { Ok(value) }
}

// Searching

/// One search for so many minutes. A delivery with rest 0 is done; an engine with 0 remaining is closed.
struct Search {
    engines: usize,
    deliveries: usize,
    minutes: u64,
    allowance: u64,
    tries: u64,
    word: u64,
    remaining: [u64; ENGINES],
    rest: [u64; DELIVERIES],
    limit: [u64; DELIVERIES],
    pieces: [[u64; ENGINES]; DELIVERIES],
}

fn solve(plan: &Plan) -> Search {
    let mut best = search_for(plan, plan.minutes);
    if !plan.shortest || best.word != FOUND {
        return best;
    }
    let mut low = 0;
    while best.minutes - low > 1 {
        let search = search_for(plan, (low + best.minutes) / 2);
        match search.word {
            FOUND => best = search,
            NONE => low = search.minutes,
            _ => return search,
        }
    }
    best
}

fn search_for(plan: &Plan, minutes: u64) -> Search {
    let mut search = Search {
        engines: plan.engines, deliveries: plan.deliveries, minutes, allowance: plan.allowance, tries: 0, word: NONE,
        remaining: [0; ENGINES], rest: plan.energies, limit: plan.limits, pieces: [[0; ENGINES]; DELIVERIES],
    };
    for i in 0..plan.engines {
        search.remaining[i] = plan.fuels[i].min(plan.watts[i] * plan.running(i, minutes) / 60);
    }
    if search.rest.iter().sum::<u64>() <= search.remaining.iter().sum() {
        search.word = search.choose();
    }
    search
}

impl Search {
    /// Found fills from the front of what is lent: a row of pieces for each delivery, and each engine's spare.
    fn write(&self, table: &mut [u64], spare: &mut [u64]) {
        if self.word != FOUND {
            return;
        }
        for (row, pieces) in table.chunks_mut(self.engines).zip(&self.pieces[..self.deliveries]) {
            row.copy_from_slice(&pieces[..self.engines]);
        }
        spare[..self.engines].copy_from_slice(&self.remaining[..self.engines]);
    }

    /// B, C and E; each of the three steps returns the word it ends in, and undoes what it did where that is none.
    fn choose(&mut self) -> u64 {
        let p = match self.bulkiest() {
            Some(p) => p,
            None => return FOUND,
        };
        if self.limit[p] == 1 {
            return self.lay(p);
        }
        let open = self.remaining[..self.engines].iter().filter(|remaining| **remaining > 0);
        if self.rest[p] <= (self.limit[p] - 1) * open.min().unwrap_or(&0) {
            self.straight_fill();
            return FOUND;
        }
        self.cut(p)
    }

    fn bulkiest(&self) -> Option<usize> {
        let mut best = None;
        for p in 0..self.deliveries {
            if self.rest[p] > 0 && best.map_or(true, |q| self.bulkier(p, q)) {
                best = Some(p);
            }
        }
        best
    }

    fn bulkier(&self, p: usize, q: usize) -> bool {
        match (self.limit[p], self.limit[q]) {
            (1, 1) => self.rest[p] > self.rest[q],
            (1, _) => true,
            (_, 1) => false,
            (limit_p, limit_q) => self.rest[p] * (limit_q - 1) > self.rest[q] * (limit_p - 1),
        }
    }

    /// D.
    fn lay(&mut self, p: usize) -> u64 {
        let rest = self.rest[p];
        for i in 0..self.engines {
            if self.remaining[i] < rest {
                continue;
            }
            if self.tries == self.allowance {
                return STOPPED;
            }
            self.tries += 1;
            self.pieces[p][i] = rest;
            self.remaining[i] -= rest;
            self.rest[p] = 0;
            let word = self.choose();
            if word != NONE {
                return word;
            }
            self.pieces[p][i] = 0;
            self.remaining[i] += rest;
            self.rest[p] = rest;
        }
        NONE
    }

    /// F.
    fn cut(&mut self, p: usize) -> u64 {
        for i in 0..self.engines {
            let piece = self.remaining[i];
            if piece == 0 || piece >= self.rest[p] {
                continue;
            }
            if self.tries == self.allowance {
                return STOPPED;
            }
            self.tries += 1;
            self.pieces[p][i] = piece;
            self.remaining[i] = 0;
            self.rest[p] -= piece;
            self.limit[p] -= 1;
            let word = self.choose();
            if word != NONE {
                return word;
            }
            self.pieces[p][i] = 0;
            self.remaining[i] = piece;
            self.rest[p] += piece;
            self.limit[p] += 1;
        }
        NONE
    }

    /// The energies fit in what remains, so `i` does not pass the last engine.
    fn straight_fill(&mut self) {
        let mut i = 0;
        for p in 0..self.deliveries {
            while self.rest[p] > 0 {
                let piece = self.rest[p].min(self.remaining[i]);
                if piece == 0 {
                    i += 1;
                    continue;
                }
                self.pieces[p][i] = piece;
                self.remaining[i] -= piece;
                self.rest[p] -= piece;
            }
        }
    }
}

// Printing

/// Hands the print's parts to `put` in order: to count them first, then to write them.
fn print(plan: &Plan, search: &Search, put: &mut impl FnMut(&[u8])) {
    let found = search.word == FOUND;
    let rows = if found { &search.pieces[..search.deliveries] } else { &[] };
    let pieces = rows.iter().flatten().filter(|piece| **piece > 0).count();
    put([&b"found,"[..], b"none,", b"stopped,"][search.word as usize]);
    print_number(search.minutes, put);
    put(b",");
    print_number(search.tries, put);
    put(b",");
    print_number(pieces as u64, put);
    put(b"\r\n");
    for (p, row) in rows.iter().enumerate() {
        for i in 0..search.engines {
            if row[i] > 0 {
                put(b"piece,");
                print_name(&plan.delivery_names[p], put);
                put(b",");
                print_name(&plan.engine_names[i], put);
                put(b",");
                print_number(row[i], put);
                put(b"\r\n");
            }
        }
    }
}

fn print_name(name: &Name, put: &mut impl FnMut(&[u8])) {
    let length = name.iter().position(|byte| *byte == 0).unwrap_or(name.len());
    let name = &name[..length];
    if !name.iter().any(|byte| matches!(byte, b'"' | b',')) {
        return put(name);
    }
    put(b"\"");
    for byte in name {
        put(if *byte == b'"' { b"\"\"" } else { std::slice::from_ref(byte) });
    }
    put(b"\"");
}

fn print_number(mut number: u64, put: &mut impl FnMut(&[u8])) {
    let mut digits = [0; 20];
    let mut at = digits.len();
    loop {
        at -= 1;
        digits[at] = b'0' + (number % 10) as u8;
        number /= 10;
        if number == 0 {
            return put(&digits[at..]);
        }
    }
}
