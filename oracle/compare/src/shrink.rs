//! The smallest script that still shows a difference: lines are dropped, then words made simpler.

use script::{Call, hex, parse_hex};

pub fn smallest(script: &[String], shows: impl Fn(&[String]) -> bool) -> Vec<String> {
    let mut lines = script.to_vec();
    loop {
        let before = lines.clone();
        drop_lines(&mut lines, &shows);
        simplify_words(&mut lines, &shows);
        if lines == before {
            return lines;
        }
    }
}

fn drop_lines(lines: &mut Vec<String>, shows: &impl Fn(&[String]) -> bool) {
    let mut chunk = lines.len().div_ceil(2).max(1);
    loop {
        let mut start = 0;
        while start < lines.len() {
            let end = (start + chunk).min(lines.len());
            let mut fewer = lines.clone();
            fewer.drain(start..end);
            if !fewer.is_empty() && shows(&fewer) {
                *lines = fewer;
            } else {
                start = end;
            }
        }
        if chunk == 1 {
            return;
        }
        chunk = chunk.div_ceil(2);
    }
}

fn simplify_words(lines: &mut Vec<String>, shows: &impl Fn(&[String]) -> bool) {
    for place in 0..lines.len() {
        let mut word_place = 1;
        while word_place < lines[place].split(' ').count() {
            let words: Vec<String> = lines[place].split(' ').map(String::from).collect();
            let simpler = simpler_words(&words[word_place]).into_iter().find_map(|word| {
                let mut words = words.clone();
                words[word_place] = word;
                let mut tried = lines.clone();
                tried[place] = words.join(" ");
                (Call::parse(&tried[place]).is_some() && shows(&tried)).then_some(tried)
            });
            match simpler {
                Some(tried) => *lines = tried,
                None => word_place += 1,
            }
        }
    }
}

/// Words that are shorter, or small numbers.
fn simpler_words(word: &str) -> Vec<String> {
    if let Some(bytes) = parse_hex(word) {
        return simpler_bytes(&bytes).iter().map(|bytes| hex(bytes)).collect();
    }
    match word.parse::<u64>() {
        Ok(number) => [0, 1, 2, number / 2, number.saturating_sub(1)]
            .into_iter()
            .filter(|&simpler| simpler < number)
            .map(|simpler| simpler.to_string())
            .collect(),
        Err(_) if word.contains(',') => {
            let items: Vec<&str> = word.split(',').collect();
            (0..items.len())
                .map(|out| {
                    let kept: Vec<&str> =
                        items.iter().enumerate().filter(|(place, _)| *place != out).map(|(_, item)| *item).collect();
                    kept.join(",")
                })
                .collect()
        }
        Err(_) => Vec::new(),
    }
}

/// Without one delta operation, cut in half, without the last byte. A whole table is left alone.
fn simpler_bytes(bytes: &[u8]) -> Vec<Vec<u8>> {
    if bytes.is_empty() || bytes.len() > 20_000 {
        return Vec::new();
    }
    let mut simpler = vec![Vec::new(), bytes[..bytes.len() / 2].to_vec()];
    let starts = operation_starts(bytes);
    for pair in starts.windows(2) {
        simpler.push([&bytes[..pair[0]], &bytes[pair[1]..]].concat());
    }
    simpler.push(bytes[..bytes.len() - 1].to_vec());
    simpler.retain(|candidate| candidate.len() < bytes.len());
    simpler
}

/// Where operations begin, and the end, as far as the bytes read as a delta.
fn operation_starts(bytes: &[u8]) -> Vec<usize> {
    let mut starts = vec![0];
    let mut at = 0;
    let u16_at = |at: usize| bytes.get(at..at + 2).map(|part| usize::from(u16::from_le_bytes([part[0], part[1]])));
    while at < bytes.len() {
        at += match bytes[at] {
            0 => 25,
            2 => 9,
            1 => {
                let Some(key) = u16_at(at + 1) else { return starts };
                let Some(value) = u16_at(at + 3 + key) else { return starts };
                1 + 2 + key + 2 + value + 9
            }
            _ => return starts,
        };
        if at > bytes.len() {
            return starts;
        }
        starts.push(at);
    }
    starts
}

#[cfg(test)]
mod tests {
    use super::*;

    fn lines(text: &[&str]) -> Vec<String> {
        text.iter().map(|line| line.to_string()).collect()
    }

    #[test]
    fn keeps_only_what_shows_the_difference() {
        let script = lines(&["add 1", "beat 1", "add 77", "get 1 x61", "beat 77", "gc 5 5"]);
        let shows = |lines: &[String]| {
            let beaten = lines.iter().position(|line| line.starts_with("beat"));
            let added = lines.iter().position(|line| line.starts_with("add"));
            added.zip(beaten).is_some_and(|(added, beaten)| added < beaten)
        };
        assert_eq!(smallest(&script, shows), lines(&["add 0", "beat 0"]));
    }

    #[test]
    fn drops_operations_of_a_delta() {
        let node = [vec![0], vec![7; 24]].concat();
        let max = [vec![2], vec![9; 8]].concat();
        let script = vec![format!("readdelta {}", hex(&[&node[..], &max, &node, &max].concat()))];
        let shows = |lines: &[String]| {
            let bytes = lines.last().and_then(|line| parse_hex(line.strip_prefix("readdelta ")?)).unwrap_or_default();
            operation_starts(&bytes).last() == Some(&bytes.len()) && bytes.windows(9).any(|part| part == max)
        };
        assert_eq!(smallest(&script, shows), vec![format!("readdelta {}", hex(&max))]);
    }
}
