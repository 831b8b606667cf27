//! Inputs of 65,536 bytes: the same on every machine.

use second::inputs::Random;
use second::transcript::LONGEST_INPUT;

const CODES: [&str; 12] = ["EUR", "BEF", "DEM", "ESP", "FRF", "IEP", "ITL", "LUF", "NLG", "ATS", "PTE", "FIM"];

/// The accounts that the lines name, and no book's own.
const ACCOUNTS: u64 = 120;

struct Writer {
    random: Random,
    text: String,
    /// The numbers given and not yet carried, so that the docket never fills.
    given: u64,
    carried: u64,
}

impl Writer {
    fn new(seed: u64) -> Writer {
        Writer { random: Random::new(seed), text: String::new(), given: 0, carried: 0 }
    }

    fn below(&mut self, bound: u64) -> u64 {
        self.random.number() % bound
    }

    fn account(&mut self) -> u64 {
        2 + self.below(ACCOUNTS)
    }

    fn code(&mut self) -> &'static str {
        CODES[self.below(12) as usize]
    }

    /// A post of so many pairs of legs, each pair in one currency.
    fn post(&mut self, pairs: u64) -> String {
        let mut line = String::from("post");
        for _ in 0..pairs {
            let (from, to, code, amount) =
                (self.account(), self.account(), self.code(), 10_000_000 + self.below(90_000_000));
            line += &format!(" {from} {code} -{amount} {to} {code} +{amount}");
        }
        line
    }

    fn conversion(&mut self) -> String {
        let source = self.below(12);
        let target = (source + 1 + self.below(11)) % 12;
        let (from, to, amount) = (self.account(), self.account(), 1_000 + self.below(1_000_000));
        self.given += 1;
        format!("conv {from} {to} {} {} {amount}", CODES[source as usize], CODES[target as usize])
    }

    fn carry(&mut self) -> String {
        self.carried += 1;
        let (number, account) = (self.carried, self.account());
        format!("carry {number} {account}")
    }

    fn split(&mut self) -> String {
        let mut line = format!("split {} {} {}", self.account(), self.code(), 100_000 + self.below(10_000_000));
        for _ in 0..3 + self.below(6) {
            line += &format!(" {}:{}", self.account(), 1 + self.below(1_000));
        }
        line
    }

    fn sweep(&mut self) -> String {
        format!("sweep {} {}", self.account(), 12 + self.below(22))
    }

    /// Adds the line if it fits, and says whether it did.
    fn add(&mut self, line: &str) -> bool {
        let fits = self.text.len() + line.len() < LONGEST_INPUT;
        if fits {
            self.text += line;
            self.text.push('\n');
        }
        fits
    }

    /// Fills what is left with spaces, so that the input has all 65,536 bytes.
    fn bytes(mut self) -> Vec<u8> {
        while self.text.len() < LONGEST_INPUT {
            self.text.push(' ');
        }
        self.text.into_bytes()
    }
}

/// Of a hundred lines 55 posts of two to six legs, 18 conversions, as many carries, 7 splits and 2 sweeps.
pub fn mixed() -> Vec<u8> {
    let mut writer = Writer::new(1);
    loop {
        let line = match writer.below(100) {
            0..=54 => {
                let pairs = 1 + writer.below(3);
                writer.post(pairs)
            }
            55..=90 if writer.given > writer.carried + 20 => writer.carry(),
            55..=72 => writer.conversion(),
            73..=90 if writer.given > writer.carried => writer.carry(),
            73..=90 => writer.conversion(),
            91..=97 => writer.split(),
            _ => writer.sweep(),
        };
        if !writer.add(&line) {
            return writer.bytes();
        }
    }
}

/// Posts of four legs. All their legs fit into a journal of 4,096 records.
pub fn posts() -> Vec<u8> {
    let mut writer = Writer::new(2);
    loop {
        let line = writer.post(2);
        if !writer.add(&line) {
            return writer.bytes();
        }
    }
}
