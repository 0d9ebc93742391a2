//! Lines of words, read and written.

/// The text of a file of words.
pub fn text(bytes: &[u8]) -> Result<&str, String> {
    std::str::from_utf8(bytes).map_err(|fault| format!("byte {} begins no character: this is no text", fault.valid_up_to()))
}

/// The lines that say something, without comments, each with its number from 1.
pub fn lines(text: &str) -> impl Iterator<Item = (usize, &str)> {
    text.lines().enumerate().filter_map(|(before, line)| {
        let said = line.split('#').next().unwrap_or("").trim();
        (!said.is_empty()).then_some((before + 1, said))
    })
}

/// Steps and their answers, a pair a line, the answers below each other, behind what `lines` takes for a comment.
pub fn beside(pairs: &[(String, String)]) -> String {
    let width = pairs.iter().map(|(step, _)| step.len()).max().unwrap_or(0);
    pairs.iter().map(|(step, answer)| format!("{step:width$}  # {answer}\n")).collect()
}

/// A number with commas: 2,018,016.
pub fn grouped(number: u64) -> String {
    let digits = number.to_string();
    let threes = digits.as_bytes().rchunks(3).rev().map(|three| String::from_utf8_lossy(three));
    threes.collect::<Vec<_>>().join(",")
}

/// 1 order, 462 orders.
pub fn so_many(count: u64, what: &str) -> String {
    format!("{} {what}{}", grouped(count), if count == 1 { "" } else { "s" })
}
