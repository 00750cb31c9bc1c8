//! Transcripts of the bench: the text, and every place of the buffer after it.

use highvane::{Refusal, TRANSCRIPT_MAX, transcript, transcript_into};

use crate::meaning::records;
use crate::random::Random;
use crate::singles::any_pattern;
use crate::tally::Tally;

/// How many bytes of an input are shown where the texts differ.
const SHOWN: usize = 200;

fn compare(input: &[u8], random: &mut Random, tally: &mut Tally) {
    let meant = records::transcript(input);
    let shown = || {
        let start: Vec<String> = input.iter().take(SHOWN).map(|byte| format!("{byte:02X}")).collect();
        format!("records, {} bytes: {}", input.len(), start.join(" "))
    };

    let before: Vec<u8> = random.any().to_le_bytes().repeat(TRANSCRIPT_MAX / 8);
    let mut buffer = before.clone();
    let lent = buffer.first_chunk_mut().expect("the buffer has that length");
    let given = transcript_into(input, lent);
    let written = given.len();
    let text = String::from_utf8_lossy(given).into_owned();
    for line in text.lines() {
        if let Some((_, number)) = line.split_once(" no ") {
            // A number that is none is a difference of the texts, which is reported below.
            if let Some(refusal) = number.parse().ok().and_then(Refusal::from_number) {
                tally.reach(refusal);
            }
        }
    }
    let (line, meant_line) = first_difference(&text, &meant);
    tally.same(line, meant_line, shown);
    tally.same(buffer[written..] == before[written..], true, || shown() + ", later places kept");
    let owned = transcript(input);
    tally.same(owned == meant.as_bytes(), true, || shown() + ", as a Vec");
}

/// The first line of either text where the two differ, and nothing where they are the same.
fn first_difference<'t>(given: &'t str, meant: &'t str) -> (Option<&'t str>, Option<&'t str>) {
    let (mut given, mut meant) = (given.split_inclusive('\n'), meant.split_inclusive('\n'));
    loop {
        let lines = (given.next(), meant.next());
        if lines.0 != lines.1 || lines.0.is_none() {
            return lines;
        }
    }
}

/// A record of a known kind, whole.
fn push_record(input: &mut Vec<u8>, random: &mut Random) {
    match random.below(3) {
        0 => {
            let design = random.design() as u8;
            input.extend([1, design, random.setting(design.into(), 16) as u8]);
            input.extend(random.sample().to_le_bytes());
            input.extend(random.sample().to_le_bytes());
        }
        1 => {
            input.push(2);
            input.extend(any_pattern(random).to_le_bytes());
            input.extend(any_pattern(random).to_le_bytes());
        }
        _ => input.extend([3, random.any() as u8, random.any() as u8]),
    }
}

fn records_of(count: usize, random: &mut Random) -> Vec<u8> {
    let mut input = Vec::new();
    for _ in 0..count {
        push_record(&mut input, random);
    }
    input
}

/// Runs of up to 60 records: whole, cut at any byte, with bytes changed, with an unknown kind among them, and bytes of no order.
pub fn seeded(random: &mut Random, tally: &mut Tally) {
    for _ in 0..4_000 {
        let count = random.size(61);
        let mut input = records_of(count, random);
        match random.below(6) {
            0 => input.truncate(random.size(input.len() + 1)),
            1 if !input.is_empty() => {
                let place = random.size(input.len());
                input[place] = random.any() as u8;
            }
            2 => {
                input.push(random.any() as u8);
                push_record(&mut input, random);
            }
            3 => input = (0..count).map(|_| random.below(5) as u8).collect(),
            4 => input = (0..count).map(|_| random.any() as u8).collect(),
            _ => {}
        }
        compare(&input, random, tally);
    }
}

/// Every kind alone and with every length of body up to one byte more than it takes.
pub fn kinds(random: &mut Random, tally: &mut Tally) {
    for kind in 0..=u8::MAX {
        for length in 0..=9 {
            let mut input = vec![kind];
            input.extend((0..length).map(|_| random.any() as u8));
            compare(&input, random, tally);
        }
    }
}

/// Inputs at the limit of 65,536 bytes and past it, of records and of bytes of no order; and the longest text.
pub fn limit(random: &mut Random, tally: &mut Tally) {
    for length in [65_534, 65_535, 65_536, 65_537, 65_538, 70_000, 131_072, 1_000_000] {
        for _ in 0..8 {
            let mut input = records_of(length / 3 + 1, random);
            input.truncate(length);
            compare(&input, random, tally);
        }
        for byte in 0..=4 {
            compare(&vec![byte; length], random, tally);
        }
    }
    let mut longest = [3, 255, 255].repeat(21_845);
    longest.push(255);
    compare(&longest, random, tally);
}
