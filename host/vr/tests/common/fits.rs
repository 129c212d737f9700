//! Sessions in documents, with lines left out.

/// Whether a text is as written, with any lines for each `...`.
pub fn fits(text: &str, wanted: &str) -> bool {
    let (start, rest) = match wanted.split_once("...\n") {
        Some(parts) => parts,
        None => return text == wanted,
    };
    let behind = match text.strip_prefix(start) {
        Some(behind) => behind,
        None => return false,
    };
    let ends = behind.match_indices('\n').map(|(end, _)| end + 1);
    let mut lines = std::iter::once(0).chain(ends);
    lines.any(|line| fits(&behind[line..], rest))
}
