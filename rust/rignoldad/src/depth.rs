//! How deep a text of TOML goes.

/// How deep brackets may nest in a text of TOML, and of how many parts a name may be.
const DEPTH: usize = 32;
/// What is said of a text that goes deeper.
pub const TOO_DEEP: &str = "brackets nest more than 32 deep, or a name has more than 32 dots";

/// The line on which a text of TOML first goes too deep, if one does. Its reader calls
/// itself for each bracket and each dot of a name, so it has no room for very many. What is inside
/// texts and comments does not count.
pub fn too_deep(text: &str) -> Option<usize> {
    let bytes = text.as_bytes();
    let (mut at, mut depth, mut dots) = (0, 0, 0);
    while let Some(&byte) = bytes.get(at) {
        match byte {
            b'[' | b'{' => (depth, dots) = (depth + 1, 0),
            b']' | b'}' => (depth, dots) = (depth - depth.min(1), 0),
            b'.' => dots += 1,
            _ if byte.is_ascii_alphanumeric() || b"\"'-_ \t".contains(&byte) => (),
            _ => dots = 0,
        }
        if depth > DEPTH || dots > DEPTH {
            return Some(1 + text[..at].matches('\n').count());
        }
        at += match byte {
            b'#' => bytes[at..].iter().take_while(|byte| **byte != b'\n').count(),
            b'"' | b'\'' => length_of_text(&bytes[at..]),
            _ => 1,
        };
    }
    None
}

/// How long the text of TOML is that begins here, its marks with it. One of a single line that is
/// not closed ends with the line.
fn length_of_text(bytes: &[u8]) -> usize {
    let is_long = bytes.starts_with(&[bytes[0]; 3]);
    let mark = &bytes[..if is_long { 3 } else { 1 }];
    let mut at = mark.len();
    while at < bytes.len() && !bytes[at..].starts_with(mark) {
        match bytes[at] {
            b'\n' if !is_long => return at,
            b'\\' if mark[0] == b'"' => at += 2,
            _ => at += 1,
        }
    }
    // (up to two marks more belong to a long one)
    let marks = bytes.iter().skip(at).take(2 * mark.len() - 1);
    at + marks.take_while(|byte| **byte == mark[0]).count()
}
