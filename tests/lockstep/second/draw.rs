//! What is drawn for both programs alike.

use crate::messages::is_allowed;
use crate::random::Random;

/// One run of a proved program reads so many bytes.
const MOST: usize = 65_536;

/// Lines, until another would not fit or there are enough.
pub fn portion(lines: impl Iterator<Item = String>) -> String {
    let mut text = String::new();
    for line in lines {
        if text.len() + line.len() + 1 > MOST {
            break;
        }
        text += &line;
        text.push('\n');
    }
    text
}

/// A target and an authority that may update it.
pub fn allowed_pair(random: &mut Random) -> (u32, u32) {
    let any = (0..256).map(|slots| (slots / 16, slots % 16));
    let allowed: Vec<(u32, u32)> = any.filter(|&(target, authority)| is_allowed(target, authority)).collect();
    random.one_of(&allowed)
}
