//! Stored requests as corpus/README.md spells them: one a line, fields parted by one tab.

/// The fields of each line; every line ends with a newline.
pub fn requests(file: &[u8]) -> impl Iterator<Item = Vec<&[u8]>> {
    let lines = file.strip_suffix(b"\n").unwrap_or(file).split(|&octet| octet == b'\n');
    lines.map(|line| line.split(|&octet| octet == b'\t').collect())
}

/// What is said of a line that is no request, by its number from 1 on.
pub fn no_request(file: &str, line: usize) -> String {
    format!("corpus/{file}, line {line}: no request")
}

/// A number of decimal digits alone.
pub fn number(digits: &[u8]) -> Option<u64> {
    let spelt = std::str::from_utf8(digits).ok().filter(|_| digits.iter().all(u8::is_ascii_digit));
    spelt?.parse().ok()
}

/// Octets as pairs of hexadecimal digits, each perhaps with `*` and four digits that say how often it is repeated.
pub fn octets(spelt: &[u8]) -> Option<Vec<u8>> {
    let digit = |digit: u8| char::from(digit).to_digit(16);
    let mut octets = Vec::new();
    let mut rest = spelt;
    while let [high, low, behind @ ..] = rest {
        let octet = (digit(*high)? << 4 | digit(*low)?) as u8;
        let (count, behind) = match behind {
            [b'*', behind @ ..] => (number(behind.get(..4)?)? as usize, &behind[4..]),
            _ => (1, behind),
        };
        octets.resize(octets.len() + count, octet);
        rest = behind;
    }
    rest.is_empty().then_some(octets)
}
