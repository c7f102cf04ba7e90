//! Levels as the command line has them: `64,128`, `0-254`, `0-254/16`, `all`.

/// The levels that a text names, in the order it names them. Whether they ascend is for the call to say.
pub fn parse(text: &str) -> Result<Vec<u8>, String> {
    if text == "all" {
        return Ok((0..=254).collect());
    }
    let parts: Result<Vec<Vec<u8>>, String> = text.split(',').map(part).collect();
    Ok(parts?.concat())
}

/// One number, or a range with or without a step.
fn part(text: &str) -> Result<Vec<u8>, String> {
    let (range, step) = text.split_once('/').map_or((text, Ok(1)), |(range, step)| (range, number(step)));
    let (from, to) = match range.split_once('-') {
        Some((from, to)) => (number(from)?, number(to)?),
        None if text == range => (number(range)?, number(range)?),
        None => return Err(format!("'{text}' has a step and is no range")),
    };
    match step? {
        0 => Err(format!("'{text}' has a step of 0")),
        _ if from > to => Err(format!("'{text}' runs backwards")),
        step => Ok((from..=to).step_by(step as usize).collect()),
    }
}

fn number(text: &str) -> Result<u8, String> {
    let digits = !text.is_empty() && text.bytes().all(|byte| byte.is_ascii_digit());
    let value = if digits { text.parse().ok() } else { None };
    value.ok_or_else(|| format!("'{text}' is no level, which is 0 to 254"))
}

/// The levels in the same form, runs of three and more as ranges.
pub fn shown(levels: &[u8]) -> String {
    let runs = levels.chunk_by(|&k, &next| next == k.wrapping_add(1));
    let parts = runs.map(|run| match run {
        [first, _, .., last] => format!("{first}-{last}"),
        few => few.iter().map(u8::to_string).collect::<Vec<_>>().join(","),
    });
    parts.collect::<Vec<_>>().join(",")
}
