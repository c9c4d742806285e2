//! A page taken apart: cells of tables, each with the heading of its column, and lines of prose.

/// A piece of a page's text.
#[derive(Clone, Debug)]
pub struct Piece<'a> {
    /// Counted from 1.
    pub line: usize,
    /// The heading above it, as it stands.
    pub section: &'a str,
    /// The heading of its column; nothing for prose.
    pub column: Option<&'a str>,
    pub text: &'a str,
    /// The first cell of its row; the text itself for prose.
    pub first: &'a str,
}

/// The pieces of a page, without its headings, headers of tables and blocks of code.
pub fn pieces(text: &str) -> Vec<Piece<'_>> {
    let mut pieces = Vec::new();
    let mut section = "";
    let mut header: Option<Vec<&str>> = None;
    let mut in_block = false;
    for (at, line) in text.lines().enumerate() {
        let number = at + 1;
        if line.starts_with("```") {
            in_block = !in_block;
        } else if in_block {
            continue;
        } else if line.starts_with('#') {
            section = line.trim_start_matches('#').trim();
            header = None;
        } else if let Some(row) = line.strip_prefix('|') {
            let cells: Vec<&str> =
                row.trim_end().trim_end_matches('|').split('|').map(str::trim).collect();
            match &header {
                None => header = Some(cells),
                Some(_) if row.starts_with("---") => {}
                Some(names) => {
                    let first = cells.first().copied().unwrap_or("");
                    for (cell, name) in cells.iter().zip(names) {
                        let column = Some(*name);
                        pieces.push(Piece { line: number, section, column, text: cell, first });
                    }
                }
            }
        } else {
            header = None;
            if !line.trim().is_empty() {
                let column = None;
                pieces.push(Piece { line: number, section, column, text: line, first: line });
            }
        }
    }
    pieces
}

/// What stands between backquotes, each with the text before it since the last one.
pub fn spans(text: &str) -> Vec<(&str, &str)> {
    let parts: Vec<&str> = text.split('`').collect();
    parts.chunks(2).filter(|pair| pair.len() == 2).map(|pair| (pair[0], pair[1])).collect()
}
