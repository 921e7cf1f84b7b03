//! Runs a script of writes and parses through the original Rust, and prints one answer for each line.
//! The commands are those of crates/replay/src/script.rt; the answers are printed under the names of our refusals.
mod book;
mod protocol;
mod wire;

use book::{AsRawFd, OwnedFd, RawFd};
use protocol::{check_for_signature, AllowNull, Argument, ArgumentType, Message};
use std::collections::VecDeque;
use std::ffi::CString;
use std::io::BufRead;
use std::str::FromStr;
use wire::{parse_message, write_to_buffers, MessageParseError, MessageWriteError};

fn main() {
    for line in std::io::stdin().lock().lines() {
        let line = line.expect("the script is text");
        let words: Vec<&str> = line.split_whitespace().collect();
        match words.first() {
            None => {}
            Some(word) if word.starts_with('#') => {}
            Some(_) => println!("{}", answer(&words).unwrap_or_else(|| "bad line".into())),
        }
    }
}

/// None where the words are no command, or one that the original cannot be asked.
fn answer(words: &[&str]) -> Option<String> {
    match *words {
        ["open", mark] => open(number(mark)?, 1),
        ["open", mark, count] => open(number(mark)?, number(count)?),
        ["close", fd] => close(number(fd)?),
        ["write", len, fill, places, sender, opcode, ref args @ ..] => {
            let _unlimited: usize = number(places)?;
            let [fill] = bytes(fill)?[..] else { return None };
            let message = Message {
                sender_id: number(sender)?,
                opcode: number(opcode)?,
                args: arguments(args)?.into_iter().collect(),
            };
            write(vec![fill; number(len)?], &message)
        }
        ["parse", frame, letters, room] => parse(&bytes(frame)?, &signature(letters)?, number(room)?, &[]),
        ["parse", frame, letters, room, marks] => {
            let marks: Option<Vec<u64>> = marks.split(',').map(number).collect();
            parse(&bytes(frame)?, &signature(letters)?, number(room)?, &marks?)
        }
        ["check", letters, ref args @ ..] => {
            Some(check_for_signature(&signature(letters)?, &arguments(args)?).to_string())
        }
        _ => None,
    }
}

fn open(mark: u64, count: usize) -> Option<String> {
    let opened: std::io::Result<Vec<RawFd>> = (0..count).map(|_| book::open(mark)).collect();
    Some(if opened.is_ok() { "DONE" } else { "BOOKFULL" }.into())
}

fn close(fd: u32) -> Option<String> {
    Some(if book::close(fd as RawFd) { "DONE" } else { "NOTOPEN" }.into())
}

fn write(mut payload: Vec<u8>, message: &Message<u32, RawFd>) -> Option<String> {
    let mut fds = Vec::new();
    let answer = match write_to_buffers(message, &mut payload, &mut fds) {
        Ok(size) => format!("DONE {size}"),
        Err(MessageWriteError::BufferTooSmall) => "SHORT".into(),
        Err(MessageWriteError::DupFdFailed(error)) => format!("DUPFAILED {}", error.raw_os_error()?),
    };
    let marks: Vec<String> = fds.iter().map(|fd| mark_of(fd.as_raw_fd())).collect();
    Some(format!(
        "{answer} payload={} fds=[{}]",
        shown(&payload),
        marks.join(" ")
    ))
}

fn parse(raw: &[u8], signature: &[ArgumentType], _unlimited: usize, marks: &[u64]) -> Option<String> {
    let arrived: std::io::Result<VecDeque<OwnedFd>> = marks.iter().map(|mark| book::open(*mark).map(OwnedFd)).collect();
    let Ok(mut fds) = arrived else {
        return Some("BOOKFULL".into());
    };
    let answer = match parse_message(raw, signature, &mut fds) {
        Ok((message, tail)) => {
            let size = raw.len() - tail.len();
            let mut text = format!("DONE {} {} {size}", message.sender_id, message.opcode);
            for argument in &message.args {
                text += &format!(" {}", argument_shown(argument));
            }
            format!("{text} tail={}", tail.len())
        }
        Err(MessageParseError::MissingFD) => "MISSINGFD".into(),
        Err(MessageParseError::MissingData) => "MISSINGDATA".into(),
        Err(MessageParseError::Malformed) => "MALFORMED".into(),
    };
    Some(format!("{answer} left={}", fds.len()))
}

fn number<N: FromStr>(word: &str) -> Option<N> {
    word.parse().ok()
}

/// `-`, or parts joined by `+`, each an even number of hex digits, with `*COUNT` behind it where it is repeated.
fn bytes(word: &str) -> Option<Vec<u8>> {
    let mut all = Vec::new();
    if word == "-" {
        return Some(all);
    }
    for part in word.split('+') {
        let (digits, count) = match part.split_once('*') {
            Some((digits, count)) => (digits, number(count)?),
            None => (part, 1),
        };
        all.extend(hex(digits)?.repeat(count));
    }
    Some(all)
}

fn hex(digits: &str) -> Option<Vec<u8>> {
    digits
        .as_bytes()
        .chunks(2)
        .map(|pair| match *pair {
            [high, low] => Some((hex_digit(high)? << 4) + hex_digit(low)?),
            _ => None,
        })
        .collect()
}

fn hex_digit(digit: u8) -> Option<u8> {
    match digit {
        b'0'..=b'9' => Some(digit - b'0'),
        b'a'..=b'f' => Some(digit - b'a' + 10),
        _ => None,
    }
}

/// `-`, or libwayland's letters: digits first, which are skipped, and `?` only right before `s` or `o`.
fn signature(word: &str) -> Option<Vec<ArgumentType>> {
    let mut types = Vec::new();
    if word == "-" {
        return Some(types);
    }
    let mut null = AllowNull::No;
    for letter in word.trim_start_matches(|c: char| c.is_ascii_digit()).chars() {
        if null == AllowNull::Yes && letter != 's' && letter != 'o' {
            return None;
        }
        let kind = match letter {
            '?' => {
                null = AllowNull::Yes;
                continue;
            }
            'i' => ArgumentType::Int,
            'u' => ArgumentType::Uint,
            'f' => ArgumentType::Fixed,
            's' => ArgumentType::Str(null),
            'o' => ArgumentType::Object(null),
            'n' => ArgumentType::NewId,
            'a' => ArgumentType::Array,
            'h' => ArgumentType::Fd,
            _ => return None,
        };
        types.push(kind);
        null = AllowNull::No;
    }
    (null == AllowNull::No).then_some(types)
}

fn arguments(words: &[&str]) -> Option<Vec<Argument<u32, RawFd>>> {
    words.iter().map(|word| argument(word)).collect()
}

fn argument(word: &str) -> Option<Argument<u32, RawFd>> {
    if word == "S" {
        return Some(Argument::Str(None));
    }
    let (kind, value) = word.split_once(':')?;
    Some(match kind {
        "i" => Argument::Int(number(value)?),
        "u" => Argument::Uint(number(value)?),
        "f" => Argument::Fixed(number(value)?),
        "s" => Argument::Str(Some(Box::new(CString::new(bytes(value)?).ok()?))),
        "o" => Argument::Object(number(value)?),
        "n" => Argument::NewId(number(value)?),
        "a" => Argument::Array(Box::new(bytes(value)?)),
        "h" => Argument::Fd(number::<u32>(value)? as RawFd),
        _ => return None,
    })
}

fn argument_shown(argument: &Argument<u32, OwnedFd>) -> String {
    match argument {
        Argument::Int(n) => format!("i:{n}"),
        Argument::Uint(n) => format!("u:{n}"),
        Argument::Fixed(n) => format!("f:{n}"),
        Argument::Str(None) => "S".into(),
        Argument::Str(Some(text)) => format!("s:{}", shown(text.as_bytes())),
        Argument::Object(id) => format!("o:{id}"),
        Argument::NewId(id) => format!("n:{id}"),
        Argument::Array(items) => format!("a:{}", shown(items)),
        Argument::Fd(fd) => format!("h:#{}", mark_of(fd.as_raw_fd())),
    }
}

fn mark_of(fd: RawFd) -> String {
    book::mark(fd).map_or("closed".into(), |mark| mark.to_string())
}

/// Up to 64 bytes whole; of more the first 24, the last 8 and the length.
fn shown(bytes: &[u8]) -> String {
    match bytes.len() {
        0 => "-".into(),
        1..=64 => hex_of(bytes),
        len => format!("{}..{}({len})", hex_of(&bytes[..24]), hex_of(&bytes[len - 8..])),
    }
}

fn hex_of(bytes: &[u8]) -> String {
    bytes.iter().map(|byte| format!("{byte:02x}")).collect()
}
