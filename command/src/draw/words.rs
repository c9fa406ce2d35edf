//! Names, texts and numbers in words.

/// The least of a name that is shown.
const LEAST: usize = 10;

/// A file's name, or the end of one that has no room.
pub fn elided(name: &str, room: usize) -> String {
    let (count, room) = (name.chars().count(), room.max(LEAST));
    if count <= room {
        return name.to_string();
    }
    let end: String = name.chars().skip(count - (room - 2)).collect();
    format!("..{end}")
}

/// A text, or the beginning of one that has no room.
pub fn shortened(text: &str, room: usize) -> String {
    if text.chars().count() <= room {
        return text.to_string();
    }
    let beginning: String = text.chars().take(room - 2).collect();
    format!("{beginning}..")
}

/// So many of something: 1 rule, 4 rules. The number is written as it is to be seen.
pub fn counted(number: &str, what: &str) -> String {
    format!("{number} {what}{}", if number == "1" { "" } else { "s" })
}

/// A number with commas: 200,000.
pub fn grouped(number: u64) -> String {
    let digits = number.to_string();
    let mut grouped = String::new();
    for (place, digit) in digits.chars().enumerate() {
        if place > 0 && (digits.len() - place) % 3 == 0 {
            grouped.push(',');
        }
        grouped.push(digit);
    }
    grouped
}
