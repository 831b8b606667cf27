//! The inputs as files, and the same postings as ledger and hledger read them.

use std::fmt::Write;
use std::path::Path;

use second::lines::{read, split_lines, Line};
use second::money::Currency;

use crate::inputs;

/// Writes `mixed.txt`, `posts.txt` and, with the postings of the latter, `posts.journal`.
pub fn write(folder: &Path) -> std::io::Result<()> {
    std::fs::write(folder.join("mixed.txt"), inputs::mixed())?;
    let posts = inputs::posts();
    std::fs::write(folder.join("posts.journal"), journal(&posts))?;
    std::fs::write(folder.join("posts.txt"), posts)
}

/// One transaction to a post. Amounts stay in minor units, so that all three reckon with the same whole numbers.
fn journal(input: &[u8]) -> String {
    let mut text = String::new();
    for line in split_lines(input) {
        let Ok(Some(Line::Post(legs))) = read(line) else {
            continue;
        };
        text.push_str("1999/01/04 posting\n");
        for leg in legs {
            let code = Currency::from_number(leg.currency).map_or("EUR", Currency::code);
            let _ = writeln!(text, "    account{}  {} {code}", leg.account, leg.amount);
        }
        text.push('\n');
    }
    text
}
