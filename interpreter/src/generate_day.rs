//! Inputs of the day program (document 02, change 12): legal ones, and ones damaged in each way that the request names, some of
//! them longer than the program reads.

use crate::damage::{self, damage_text};
use crate::form::Form::Source;
use crate::generate::{self, end_value, Size};
use crate::random::Random;

/// The input of this number.
pub fn input(seed: u64, number: u64) -> Vec<u8> {
    let random = &mut Random::new(seed, number);
    let rule = if random.chance(12) {
        damage::case(seed, number).text
    } else {
        generate::case(seed, number, Size::Mixed).text
    };
    let variables = variables(&rule);
    let mut setting = setting(random, variables);
    let mut days = days(random, variables);
    let mut parting = b"\n".to_vec();
    if random.chance(60) {
        damage_day(random, variables, &mut setting, &mut days, &mut parting);
    }
    let mut behind = line(&setting);
    days.iter().for_each(|day| behind.extend(line(day)));
    if random.chance(15) {
        damage_text(Source, random, &mut behind);
    }
    if random.chance(4) {
        behind.pop();
    }
    if random.chance(3) {
        behind.extend_from_slice(random.pick(&[&b"\n"[..], b" \n", b"0\t1", b"0\t1\r\n"]));
    }
    if random.chance(3) {
        let more = random.pick(&[&b"0\t1\n"[..], b"1", b"\n", b"0\t1\t"]);
        behind.extend(more.repeat(random.pick(&[300, 30_000, 100_000])));
    }
    if random.chance(3) {
        behind.clear();
    }
    [rule, parting, behind].concat()
}

/// V, by the rule's first field; 1 where it is none.
fn variables(rule: &[u8]) -> i32 {
    let digits = rule.iter().take_while(|byte| byte.is_ascii_digit()).copied().collect();
    String::from_utf8(digits).ok().and_then(|digits| digits.parse().ok()).unwrap_or(1)
}

fn variable(random: &mut Random, variables: i32) -> i32 {
    random.between(0, variables.clamp(1, 256) - 1)
}

fn value(random: &mut Random) -> i32 {
    if random.chance(80) {
        random.between(-9, 99)
    } else {
        end_value(random)
    }
}

/// A variable number, a lowest and a highest value; few values, or as many as there may be at either end of the words.
fn setting(random: &mut Random, variables: i32) -> Vec<i64> {
    let more = random.pick(&[0, 1, 2, 3, 5, 9, 99]);
    let lowest = match random.below(10) {
        0 => i64::from(i32::MIN),
        1 => i64::from(i32::MAX) - more,
        _ => i64::from(random.between(-20, 100)),
    };
    vec![i64::from(variable(random, variables)), lowest, lowest + more]
}

fn day(random: &mut Random, variables: i32) -> Vec<i64> {
    let pairs = random.pick(&[1, 1, 1, 2, 2, 3, 5, 16]);
    (0..pairs)
        .flat_map(|_| [i64::from(variable(random, variables)), i64::from(value(random))])
        .collect()
}

fn days(random: &mut Random, variables: i32) -> Vec<Vec<i64>> {
    let count = random.pick(&[0, 1, 2, 3, 4, 6, 9, 20]);
    (0..count).map(|_| day(random, variables)).collect()
}

fn damage_day(
    random: &mut Random,
    variables: i32,
    setting: &mut Vec<i64>,
    days: &mut Vec<Vec<i64>>,
    parting: &mut Vec<u8>,
) {
    for _ in 0..random.pick(&[1, 1, 1, 2, 2, 3]) {
        let outside = random.pick(&[
            i64::from(variables),
            i64::from(variables) + 1,
            256,
            -1,
            i64::from(i32::MIN),
        ]);
        let chosen = random.below(days.len().max(1));
        match random.below(16) {
            0 => put(setting, 0, outside),
            1 | 2 => {
                let more = random.pick(&[-1, -1, -1, 100, 101, 1 << 31, (1 << 32) - 1, 99]);
                let highest = setting.get(1).map_or(0, |lowest| lowest + more);
                put(setting, 2, highest);
            }
            3 => {
                setting.pop();
            }
            4 => setting.push(0),
            5..=7 => {
                if let Some(day) = days.get_mut(chosen) {
                    let pair = random.below(day.len().max(2) / 2);
                    put(day, 2 * pair, outside);
                }
            }
            8 => {
                if let Some(day) = days.get_mut(chosen) {
                    day.pop();
                }
            }
            9 => {
                if let Some(day) = days.get_mut(chosen) {
                    *day = (0..random.pick(&[16, 17, 17, 18])).flat_map(|_| [0, 1]).collect();
                }
            }
            10 => {
                if let Some(day) = days.get_mut(chosen) {
                    put(day, 0, random.pick(&[1 << 31, -(1 << 31) - 1, 1 << 32]));
                }
            }
            11 | 12 => days.resize(random.pick(&[199, 200, 201, 202]), vec![0, 1]),
            13 => days.insert(chosen.min(days.len()), Vec::new()),
            14 => *parting = random.pick(&[&b""[..], b"\n\n", b"\r\n", b" \n"]).to_vec(),
            _ => *setting = vec![0, i64::from(i32::MIN), i64::from(i32::MAX)],
        }
    }
}

/// Another number at a place, where the line still has one there.
fn put(line: &mut [i64], at: usize, number: i64) {
    if let Some(old) = line.get_mut(at) {
        *old = number;
    }
}

fn line(numbers: &[i64]) -> Vec<u8> {
    let fields: Vec<String> = numbers.iter().map(i64::to_string).collect();
    (fields.join("\t") + "\n").into_bytes()
}
