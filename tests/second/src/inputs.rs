//! Seeded random inputs for the comparison: lines that a book accepts, lines that it refuses, and damaged ones. Each
//! line is also carried out on a sheet's book, so that carries and sweeps often find something.

use crate::apportion::MOST_SHARES;
use crate::book::Book;
use crate::ledger::{Account, Fraction, Ledger, Sheet};
use crate::lines::split_lines;
use crate::money::{Currency, LARGEST};
use crate::transcript::{carry_out, sheet_book, LONGEST_INPUT};

/// The generator of Steele, Lea and Flood (splitmix64): small, and the same on every machine.
#[derive(Clone, Debug)]
pub struct Random(u64);

impl Random {
    pub fn new(seed: u64) -> Random {
        Random(seed)
    }

    pub fn number(&mut self) -> u64 {
        self.0 = self.0.wrapping_add(0x9e37_79b9_7f4a_7c15);
        let mut mixed = self.0;
        mixed = (mixed ^ (mixed >> 30)).wrapping_mul(0xbf58_476d_1ce4_e5b9);
        mixed = (mixed ^ (mixed >> 27)).wrapping_mul(0x94d0_49bb_1331_11eb);
        mixed ^ (mixed >> 31)
    }

    /// From `low` to `high`, both included.
    fn between(&mut self, low: u64, high: u64) -> u64 {
        low + self.number() % (high - low + 1)
    }

    fn below(&mut self, bound: usize) -> usize {
        self.between(0, bound as u64 - 1) as usize
    }

    fn percent(&mut self, chance: u64) -> bool {
        self.between(0, 99) < chance
    }

    fn pick<V: Copy>(&mut self, values: &[V]) -> V {
        values[self.below(values.len())]
    }
}

/// Input number `index` of the series of a seed.
pub fn input(seed: u64, index: u64) -> Vec<u8> {
    let mut random = Random::new(seed);
    let start = random.number() ^ index.wrapping_mul(0xd134_2543_de82_ef95);
    let mut job = Job::new(Random::new(start));
    job.fill();
    job.bytes
}

/// How many of a hundred lines are put out of range or damaged; the rest are meant to be accepted.
#[derive(Clone, Copy)]
struct Mix {
    out_of_range: u64,
    damaged: u64,
}

#[derive(Clone, Copy, PartialEq, Eq)]
enum Call {
    Post,
    Conv,
    Split,
    Carry,
    Sweep,
}

/// What a word of a draft stands for, so that it can be put out of range in its own way.
#[derive(Clone, Copy, PartialEq, Eq)]
enum Role {
    First,
    Account,
    Code,
    Amount,
    Signed,
    Pair,
    Slip,
    Column,
}

#[derive(Clone)]
struct Piece {
    role: Role,
    text: Vec<u8>,
}

type Draft = Vec<Piece>;
type Cells = Vec<(usize, usize)>;

const EDGE_WEIGHTS: [u64; 8] = [0, 1, 999_999, 1_000_000, 1_000_001, 1 << 32, (1 << 32) + 1, 99_999_999_999];

fn piece(role: Role, text: impl ToString) -> Piece {
    Piece { role, text: text.to_string().into_bytes() }
}

fn joined(draft: &[Piece]) -> Vec<u8> {
    let words: Vec<&[u8]> = draft.iter().map(|piece| piece.text.as_slice()).collect();
    words.join(&b' ')
}

struct Job {
    random: Random,
    book: Book<Sheet>,
    /// Few accounts and currencies to a job, so that residues gather in the same cells.
    accounts: Vec<u64>,
    currencies: Vec<Currency>,
    mix: Mix,
    bytes: Vec<u8>,
}

impl Job {
    fn new(mut random: Random) -> Job {
        let mut accounts: Vec<u64> = (0..random.between(2, 6)).map(|_| random.between(2, 127)).collect();
        accounts.push(random.pick(&[2, 10, 126, 127]));
        let all: Vec<Currency> = Currency::all().collect();
        let kinds = if random.percent(40) { 12 } else { random.between(2, 4) };
        let currencies = (0..kinds).map(|_| random.pick(&all)).collect();
        let mix = random.pick(&[
            Mix { out_of_range: 0, damaged: 0 },
            Mix { out_of_range: 15, damaged: 0 },
            Mix { out_of_range: 40, damaged: 5 },
            Mix { out_of_range: 20, damaged: 20 },
            Mix { out_of_range: 10, damaged: 60 },
        ]);
        Job { random, book: sheet_book(), accounts, currencies, mix, bytes: Vec::new() }
    }

    /// Chooses the size and the kind of the input, and writes it.
    fn fill(&mut self) {
        match self.random.between(0, 99) {
            0 => {}
            1 => self.one_byte(),
            2..=31 => self.some_lines(1, 8),
            32..=66 => self.some_lines(10, 60),
            67..=82 => self.some_lines(100, 400),
            83..=88 => self.fill_docket(),
            89..=94 => self.fill_journal(),
            95 => self.many_slips(),
            96 | 97 => self.exactly(LONGEST_INPUT),
            98 => self.exactly(LONGEST_INPUT + 1),
            _ => {
                let length = self.random.pick(&[LONGEST_INPUT - 1, LONGEST_INPUT + 2, 3 * LONGEST_INPUT]);
                self.exactly(length);
            }
        }
        if self.bytes.len() < 40_000 {
            if self.random.percent(12) {
                self.damage_bytes();
            }
            if self.random.percent(30) && self.bytes.last() == Some(&b'\n') {
                self.bytes.pop();
            }
        }
    }

    fn one_byte(&mut self) {
        let byte = self.random.pick(&[0, 9, 10, 13, 32, b'0', b'p', 0x80, 0xff]);
        self.bytes.push(byte);
    }

    fn some_lines(&mut self, fewest: u64, most: u64) {
        for _ in 0..self.random.between(fewest, most) {
            self.add_line();
        }
    }

    /// Conversions until the docket is nearly or quite full, some more, then lines of all kinds.
    fn fill_docket(&mut self) {
        let records = self.random.between(62, 64) as usize;
        while self.book.docket().len() < records {
            let draft = self.conv();
            self.add_bytes(&joined(&draft));
        }
        for _ in 0..self.random.between(1, 8) {
            let mut draft = self.conv();
            if self.random.percent(50) {
                self.put_out_of_range(&mut draft);
            }
            self.add_bytes(&joined(&draft));
        }
        self.some_lines(5, 80);
    }

    /// Conversions and carries until hardly any of 4,096 records is left, then lines of all kinds.
    fn fill_journal(&mut self) {
        self.mix = Mix { out_of_range: 3, damaged: 0 };
        self.currencies.push(Currency::EURO);
        // The last line of the loop takes 16 legs at most.
        while self.journal_room() > 22 && self.bytes.len() < 60_000 {
            let draft = match self.random.between(0, 19) {
                0 => self.post(),
                1 => self.split(),
                2 if self.can_sweep() => self.sweep(),
                _ if self.book.docket().len() > self.random.below(60) => self.carry(),
                _ => self.conv(),
            };
            self.add_bytes(&joined(&draft));
        }
        if self.random.percent(50) {
            self.leave_six_records();
        }
        for _ in 0..self.random.between(4, 12) {
            let draft = if self.random.percent(70) { self.conv() } else { self.carry() };
            self.add_bytes(&joined(&draft));
        }
        self.some_lines(20, 120);
        self.bytes.truncate(LONGEST_INPUT);
    }

    /// What a journal of 4,096 records has left, as long as it has refused nothing that the sheet took.
    fn journal_room(&self) -> usize {
        let taken = sheet_book().ledger().room() - self.book.ledger().room();
        4_096usize.saturating_sub(taken)
    }

    /// Then eight legs do not fit and six still do; a conversion that is refused uses up no number.
    fn leave_six_records(&mut self) {
        let legs = self.journal_room().saturating_sub(6);
        if (2..=16).contains(&legs) {
            let plus = " 2 EUR +1".repeat(legs - 1);
            self.add_bytes(format!("post{plus} 3 EUR -{}", legs - 1).as_bytes());
        }
        self.add_bytes(b"conv 2 3 DEM FRF 10000");
        self.add_bytes(b"conv 2 3 DEM EUR 10000");
    }

    /// So many residues of nearly half a lira in one account that a sweep comes to its most, 1,000.
    fn many_slips(&mut self) {
        let slips = self.random.between(1_990, 2_050);
        for number in 1..=slips {
            self.add_bytes(format!("conv 2 2 IEP ITL 8\ncarry {number} 2").as_bytes());
        }
        for _ in 0..3 {
            self.add_bytes(b"sweep 2 28");
        }
        self.bytes.truncate(LONGEST_INPUT);
    }

    /// Cut or padded to just this many bytes.
    fn exactly(&mut self, length: usize) {
        if self.random.percent(50) {
            while self.bytes.len() < length {
                self.add_line();
            }
        } else {
            self.some_lines(5, 200);
            while self.bytes.len() < length {
                let run = self.random.between(1, 400) as usize;
                let byte = self.random.pick(b" \n");
                self.bytes.extend(std::iter::repeat_n(byte, run));
            }
        }
        self.bytes.truncate(length);
    }

    fn damage_bytes(&mut self) {
        if self.bytes.is_empty() {
            return;
        }
        for _ in 0..self.random.between(1, 12) {
            let at = self.random.below(self.bytes.len());
            if self.random.percent(50) {
                self.bytes[at] ^= 1 << self.random.below(8);
            } else {
                self.bytes[at] = self.random.pick(b"\0\t\n\r  019:+-AEz\x80\xc3\xff");
            }
        }
    }

    fn add_line(&mut self) {
        if self.random.percent(4) {
            let blank = self.random.pick(&["", " ", "     "]);
            self.add_bytes(blank.as_bytes());
            return;
        }
        let fate = self.random.between(0, 99);
        let line = if fate < self.mix.out_of_range {
            self.out_of_range()
        } else if fate < self.mix.out_of_range + self.mix.damaged {
            let draft = self.draft();
            self.damaged(draft)
        } else {
            joined(&self.draft())
        };
        self.add_bytes(&line);
    }

    fn add_bytes(&mut self, text: &[u8]) {
        for line in split_lines(text) {
            // Only the state of the book matters here; the answers are compared elsewhere.
            let _ = carry_out(&mut self.book, line);
        }
        self.bytes.extend_from_slice(text);
        self.bytes.push(b'\n');
    }

    // Lines that are meant to be accepted.

    fn draft(&mut self) -> Draft {
        let crowded = self.book.docket().len() > 50 && self.random.percent(60);
        let call = if crowded {
            Call::Carry
        } else {
            self.random.pick(&[
                Call::Post,
                Call::Post,
                Call::Conv,
                Call::Conv,
                Call::Conv,
                Call::Conv,
                Call::Split,
                Call::Split,
                Call::Carry,
                Call::Carry,
                Call::Carry,
                Call::Sweep,
            ])
        };
        match call {
            Call::Post => self.post(),
            Call::Split => self.split(),
            Call::Carry if self.can_carry() => self.carry(),
            Call::Sweep if self.can_sweep() => self.sweep(),
            _ => self.conv(),
        }
    }

    /// Now and then a carry or a sweep that finds nothing is wanted too.
    fn can_carry(&mut self) -> bool {
        !self.book.docket().is_empty() || self.random.percent(5)
    }

    fn can_sweep(&mut self) -> bool {
        !self.cells_with_parts().0.is_empty() || self.random.percent(15)
    }

    fn account(&mut self) -> u64 {
        let accounts = self.accounts.clone();
        if self.random.percent(90) {
            self.random.pick(&accounts)
        } else {
            self.random.between(2, 127)
        }
    }

    fn currency(&mut self) -> Currency {
        let currencies = self.currencies.clone();
        self.random.pick(&currencies)
    }

    fn amount(&mut self) -> u64 {
        let largest = LARGEST as u64;
        match self.random.between(0, 9) {
            0..=2 => self.random.between(1, 20),
            3..=6 => self.random.between(1, 1_000_000),
            7 => self.random.between(1, largest),
            8 => self.random.between(largest - 20, largest),
            _ => self.random.pick(&[1, 50_000, 150_000, 1_000_000, largest]),
        }
    }

    /// Balanced legs in one to four currencies, in random order.
    fn post(&mut self) -> Draft {
        let mut legs: Vec<(Currency, i64)> = Vec::new();
        for _ in 0..self.random.between(1, 4) {
            let currency = self.currency();
            let first = self.amount() as i64;
            if self.random.percent(60) || first == 1 {
                legs.extend([(currency, first), (currency, -first)]);
            } else {
                let part = self.random.between(1, first as u64 - 1) as i64;
                legs.extend([(currency, -first), (currency, part), (currency, first - part)]);
            }
        }
        // Twice the same legs still sum to zero, and come near the most that a post has.
        while legs.len() <= 8 && self.random.percent(25) {
            legs.extend_from_within(..);
        }
        for at in (1..legs.len()).rev() {
            legs.swap(at, self.random.below(at + 1));
        }
        let mut draft = vec![piece(Role::First, "post")];
        for (currency, amount) in legs {
            draft.push(piece(Role::Account, self.account()));
            draft.push(piece(Role::Code, currency.code()));
            draft.push(piece(Role::Signed, format!("{amount:+}")));
        }
        draft
    }

    fn conv(&mut self) -> Draft {
        let from = self.currency();
        let mut to = self.currency();
        while to == from {
            let all: Vec<Currency> = Currency::all().collect();
            to = self.random.pick(&all);
        }
        let amount = self.conversion_amount(from, to);
        vec![
            piece(Role::First, "conv"),
            piece(Role::Account, self.account()),
            piece(Role::Account, self.account()),
            piece(Role::Code, from.code()),
            piece(Role::Code, to.code()),
            piece(Role::Amount, amount),
        ]
    }

    /// Now and then the euro amounts that come to exactly half a minor unit, and amounts that book just about T.
    fn conversion_amount(&mut self, from: Currency, to: Currency) -> u64 {
        match (self.random.between(0, 19), to.rate()) {
            (0 | 1, Some(j)) => {
                let half = j.p as u64 / 20;
                (half * self.random.between(1, 9)) >> self.random.between(0, 2)
            }
            (2, _) => {
                let mills = to
                    .rate()
                    .map_or(10 * i128::from(LARGEST), |j| i128::from(LARGEST) * i128::from(j.p) / i128::from(j.r));
                let amount = from.rate().map_or(mills / 10, |i| mills * i128::from(i.r) / i128::from(i.p));
                let near = amount - 3 + i128::from(self.random.between(0, 6));
                near.clamp(1, i128::from(LARGEST)) as u64
            }
            (3, _) => self.amount(),
            (4..=8, _) => self.random.between(1, 30),
            _ => self.random.between(1, 10_000_000),
        }
    }

    fn split(&mut self) -> Draft {
        let currency = self.currency();
        let mut draft = vec![
            piece(Role::First, "split"),
            piece(Role::Account, self.account()),
            piece(Role::Code, currency.code()),
            piece(Role::Amount, self.amount()),
        ];
        let count = match self.random.between(0, 5) {
            0 => 1,
            1 => MOST_SHARES as u64,
            _ => self.random.between(2, MOST_SHARES as u64),
        };
        let same = self.random.between(1, 1_000_000);
        let style = self.random.between(0, 4);
        for at in 0..count {
            let weight = match style {
                _ if at == 0 && style < 4 => 1,
                0 => 1,
                1 => self.random.between(0, 3),
                2 => self.random.between(0, 1_000_000),
                3 => self.random.pick(&[0, 0, 1, 999_999, 1_000_000]),
                _ => same,
            };
            draft.push(piece(Role::Pair, format!("{}:{weight}", self.account())));
        }
        draft
    }

    fn carry(&mut self) -> Draft {
        let number = self.open_number();
        vec![piece(Role::First, "carry"), piece(Role::Slip, number), piece(Role::Account, self.account())]
    }

    /// A number on the docket if there is one.
    fn open_number(&mut self) -> u64 {
        let open: Vec<u32> = self.book.docket().iter().map(|record| record.number).collect();
        if open.is_empty() {
            self.random.between(0, 3)
        } else {
            u64::from(self.random.pick(&open))
        }
    }

    /// Mostly a cell that holds at least one whole; else one that holds something, if there is any.
    fn sweep(&mut self) -> Draft {
        let (wholes, less) = self.cells_with_parts();
        let (account, column) = if !wholes.is_empty() && self.random.percent(85) {
            self.random.pick(&wholes)
        } else if !less.is_empty() {
            self.random.pick(&less)
        } else {
            (self.account() as usize, self.random.between(12, 33) as usize)
        };
        vec![piece(Role::First, "sweep"), piece(Role::Account, account), piece(Role::Column, column)]
    }

    /// The accounts and columns that hold a whole or more, and those that hold something less.
    fn cells_with_parts(&self) -> (Cells, Cells) {
        let (mut wholes, mut less) = (Vec::new(), Vec::new());
        for account in Account::all().skip(2) {
            for fraction in (12..=33).filter_map(Fraction::from_number) {
                let parts = self.book.ledger().cell(account, fraction.column);
                if parts.abs() >= fraction.whole {
                    wholes.push((account.number(), fraction.column.number()));
                } else if parts != 0 {
                    less.push((account.number(), fraction.column.number()));
                }
            }
        }
        (wholes, less)
    }

    // Lines that can be read and are mostly refused by the book.

    fn out_of_range(&mut self) -> Vec<u8> {
        let mut draft = match self.random.between(0, 4) {
            0 => self.post(),
            1 => self.conv(),
            2 => self.split(),
            3 => self.carry(),
            _ => self.sweep(),
        };
        self.put_out_of_range(&mut draft);
        joined(&draft)
    }

    fn put_out_of_range(&mut self, draft: &mut Draft) {
        let first = draft[0].text.clone();
        match (first.as_slice(), self.random.between(0, 9)) {
            (b"post", 0..=3) => self.miscount_legs(draft),
            (b"split", 0..=3) => self.miscount_pairs(draft),
            (b"conv", 0 | 1) => draft[4].text = draft[3].text.clone(),
            (b"conv", 2) => draft[5] = piece(Role::Amount, LARGEST),
            _ => {}
        }
        for _ in 0..self.random.pick(&[0, 1, 1, 1, 2, 3]) {
            let at = self.random.below(draft.len());
            let text = self.edge(&draft[at]);
            draft[at].text = text.into_bytes();
        }
    }

    fn miscount_legs(&mut self, draft: &mut Draft) {
        let legs = (draft.len() - 1) / 3;
        let wanted = match self.random.between(0, 5) {
            0 => 0,
            1 => 1,
            2 => 16,
            3 => 17,
            _ => self.random.between(0, legs as u64) as usize,
        };
        while (draft.len() - 1) / 3 < wanted {
            let leg = draft[1..4].to_vec();
            draft.extend(leg);
        }
        draft.truncate(1 + 3 * wanted);
    }

    fn miscount_pairs(&mut self, draft: &mut Draft) {
        let last = draft[draft.len() - 1].clone();
        let wanted = self.random.pick(&[0, 1, 15, 16, 17, 44, 45, 46]);
        draft.resize(4 + wanted, last);
        if self.random.percent(30) {
            for pair in draft.iter_mut().skip(4) {
                pair.text = b"2:0".to_vec();
            }
        }
    }

    /// A value at or beyond an edge of what the word may be.
    fn edge(&mut self, piece: &Piece) -> String {
        let text = String::from_utf8_lossy(&piece.text).into_owned();
        match piece.role {
            Role::First => text,
            Role::Account => self.edge_account().to_string(),
            Role::Code => {
                let all: Vec<Currency> = Currency::all().collect();
                self.random.pick(&all).code().to_string()
            }
            Role::Amount => {
                self.random.pick(&["0", "1", "99999999998", "99999999999", "0", "100000000000"]).to_string()
            }
            Role::Signed => {
                self.random.pick(&["+0", "-0", "+1", "-1", "+99999999999", "-99999999999", "-100000000000"]).to_string()
            }
            Role::Pair => {
                let account = if self.random.percent(50) { self.edge_account() } else { self.account() };
                let weight = self.random.pick(&EDGE_WEIGHTS);
                format!("{account}:{weight}")
            }
            Role::Slip => {
                let number = self.open_number();
                let wide = self.wide(number);
                self.random.pick(&[0, 1, number + 1, 64, 65, 999_999, 1_000_000, 99_999_999_999, wide]).to_string()
            }
            Role::Column => {
                let column = self.random.between(12, 33);
                let wide = self.wide(column);
                self.random.pick(&[0, 10, 11, 12, 22, 23, 33, 34, 99_999_999_999, wide]).to_string()
            }
        }
    }

    fn edge_account(&mut self) -> u64 {
        let account = self.account();
        let wide = self.wide(account);
        self.random.pick(&[0, 1, 2, 127, 128, 255, 256, 99_999_999_999, wide])
    }

    /// The same number to whoever keeps only 8, 16 or 32 bits of it.
    fn wide(&mut self, number: u64) -> u64 {
        number + self.random.pick(&[1 << 8, 1 << 16, 1 << 32, 1 << 33])
    }

    // Lines that are mostly refused by the reader.

    fn damaged(&mut self, mut draft: Draft) -> Vec<u8> {
        let at = self.random.below(draft.len());
        match self.random.between(0, 13) {
            0 => return self.damaged_spaces(draft),
            1 => self.put_byte(&mut draft[at].text),
            2 => draft[at].text.insert(0, b'0'),
            3 => {
                draft.remove(at);
            }
            4 => {
                let extra = draft[at].clone();
                draft.insert(at, extra);
            }
            5 => draft[at].text.make_ascii_lowercase(),
            6 => draft[at].text.make_ascii_uppercase(),
            7 => draft[at].text = self.random.pick(&["+", "-", "++1", "+-1", "-01", "+00", "1", "+1", "-1"]).into(),
            8 => {
                draft[at].text =
                    self.random.pick(&["1:", ":1", ":", "1:2:3", "2:1", "2:01", "02:1", "2:+1", "2::1"]).into()
            }
            9 => {
                draft[at].text = self.random.pick(&["USD", "GBP", "EURO", "EU", "E", "eur", "Eur", "XXX", "EUR"]).into()
            }
            10 => {
                draft[at].text =
                    self.random.pick(&["00", "000000000001", "123456789012", "1e3", "0x1", "1.5", "1,5"]).into()
            }
            11 => {
                draft[0].text =
                    self.random.pick(&["", "p", "posts", "Post", "audit", "open", "end", "#", "POST"]).into()
            }
            12 => draft = self.of_about_49_words(draft),
            _ => {
                let byte = self.random.between(0, 255) as u8;
                draft[at].text.push(byte);
            }
        }
        joined(&draft)
    }

    fn put_byte(&mut self, text: &mut Vec<u8>) {
        let at = self.random.below(text.len() + 1);
        text.insert(at, self.random.pick(b"\0\t\r\x0b\x1f!\x7f\x80\xa0\xff"));
    }

    /// More spaces change only the columns; a tab or a byte 13 is part of a word.
    fn damaged_spaces(&mut self, draft: Draft) -> Vec<u8> {
        let mut line = Vec::new();
        for piece in draft {
            let space = self.random.pick(&["", " ", "   "]);
            line.extend_from_slice(space.as_bytes());
            if !line.is_empty() && !line.ends_with(b" ") {
                line.push(b' ');
            }
            line.extend_from_slice(&piece.text);
        }
        let end = self.random.pick(&["", "", " ", "   ", "\r", "\t", " \r", " \t "]);
        line.extend_from_slice(end.as_bytes());
        if self.random.percent(20) {
            let at = self.random.below(line.len());
            if line[at] == b' ' {
                line[at] = b'\t';
            }
        }
        line
    }

    fn of_about_49_words(&mut self, mut draft: Draft) -> Draft {
        let wanted = self.random.pick(&[48, 49, 50, 51, 90]);
        let last: Vec<Piece> = draft.iter().skip(1).rev().take(3).rev().cloned().collect();
        while draft.len() < wanted {
            match last.as_slice() {
                [] => draft.push(piece(Role::Amount, 1)),
                legs => draft.extend_from_slice(legs),
            }
        }
        draft.truncate(wanted);
        draft
    }
}
