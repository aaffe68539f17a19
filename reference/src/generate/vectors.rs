//! BIP 173's published vectors, as `vectors/bip173.txt` has them.

const FILE: &str = include_str!("../../vectors/bip173.txt");

/// A text, and whether its checksum holds, whatever else BIP 173 asks of it.
pub struct Vector {
    pub text: Vec<u8>,
    pub holds: bool,
}

/// All of them, in the file's order.
#[must_use]
pub fn all() -> Vec<Vector> {
    FILE.lines().filter(|line| !line.starts_with('#')).map(vector).collect()
}

/// `valid HEX`, or `invalid HEX REASON`, where the reason says if the checksum holds all the same.
fn vector(line: &str) -> Vector {
    let words: Vec<&str> = line.split(' ').collect();
    match words[..] {
        ["valid", hex] => Vector { text: bytes(hex), holds: true },
        ["invalid", hex, reason] => Vector { text: bytes(hex), holds: reason.contains("checksum=holds") },
        _ => panic!("no vector: {line}"),
    }
}

fn bytes(hex: &str) -> Vec<u8> {
    let byte = |at| u8::from_str_radix(&hex[at..at + 2], 16).expect("two hex digits");
    (0..hex.len()).step_by(2).map(byte).collect()
}

#[cfg(test)]
mod tests {
    use super::all;

    #[test]
    fn the_file_has_both_sorts() {
        let vectors = all();
        assert_eq!(vectors[0].text, b"A12UEL5L");
        assert_eq!(vectors.iter().filter(|vector| vector.holds).count(), 14);
        assert_eq!(vectors.iter().filter(|vector| !vector.holds).count(), 5);
    }
}
