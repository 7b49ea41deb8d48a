//! How wide words are, and how they stand in a file.

/// The fonts that are asked for, the first that is there.
pub const FONTS: &str = "DejaVu Sans, Verdana, Helvetica, Arial, sans-serif";

/// At most so wide are these words in a font of this size; the first two fonts are the widest.
pub fn width(words: &str, size: i32, bold: bool) -> i32 {
    let hundredths: i32 = words.chars().map(character_width).sum();
    let hundredths = if bold { hundredths * 112 / 100 } else { hundredths };
    (hundredths * size + 99) / 100
}

/// In hundredths of the size.
fn character_width(character: char) -> i32 {
    match character {
        ' ' | '\'' | ',' | '.' | 'i' | 'j' | 'l' => 37,
        '!' | '(' | ')' | '-' | '/' | ':' | ';' | '[' | '\\' | ']' | 'f' | 'r' | 't' | '|' => 46,
        'a'..='l' | 'n'..='v' | 'x'..='z' | '0'..='9' | '_' => 64,
        'A'..='L' | 'N'..='V' | 'X'..='Z' => 84,
        'm' | 'w' | 'M' | 'W' => 100,
        _ => 110,
    }
}

/// As much of the words as has room, with a sign behind them if some are left out.
pub fn cut(words: &str, size: i32, bold: bool, room: i32) -> String {
    let mut shown: Vec<char> = words.chars().collect();
    let all = shown.len();
    loop {
        let end = if shown.len() < all { "…" } else { "" };
        let cut: String = shown.iter().collect::<String>() + end;
        if shown.is_empty() || width(&cut, size, bold) <= room {
            return cut;
        }
        shown.pop();
    }
}

/// The name of a file, without what cannot be shown or would turn round what follows it.
pub fn shown_name(name: &str) -> String {
    let shown = |character: char| match character {
        '\u{202a}'..='\u{202e}' | '\u{2066}'..='\u{2069}' | '\u{fffe}' | '\u{ffff}' => '\u{fffd}',
        character if character.is_control() => '\u{fffd}',
        character => character,
    };
    name.chars().map(shown).collect()
}

/// Words as they stand in markup.
pub fn marked_up(words: &str) -> String {
    let mut marked = String::new();
    for character in words.chars() {
        match character {
            '&' => marked += "&amp;",
            '<' => marked += "&lt;",
            '>' => marked += "&gt;",
            '"' => marked += "&quot;",
            _ => marked.push(character),
        }
    }
    marked
}

/// Words as they stand between quotes in a file for dot.
pub fn quoted(words: &str) -> String {
    let escaped = words.replace('\\', "\\\\").replace('"', "\\\"").replace('\n', "\\n");
    format!("\"{escaped}\"")
}
