//! The receivers byte by byte, as M-100 is worded, to compare the quick ones with.

/// What a byte does.
#[derive(Clone, Copy, PartialEq, Eq, Debug)]
pub enum Step {
    /// It is stored behind those collected.
    Keep,
    /// It drops those collected and is stored first.
    Anew,
    /// It drops those collected, itself too.
    Drop,
    /// It finishes the frame.
    Finish,
}

/// Datalink "starts at 7Eh and takes its length from command and NUM".
pub fn datalink(collected: &[u8], byte: u8) -> Step {
    match *collected {
        [] if byte == 0x7E => Step::Keep,
        [] => Step::Drop,
        [_] => match byte & 0xE0 {
            0xE0 | 0xC0 | 0xA0 => Step::Keep,
            0x80 => Step::Finish,
            _ => Step::Drop,
        },
        [_, _] if byte > 32 => Step::Drop,
        [_, _] => Step::Keep,
        [_, command, num, ..] => {
            let data = if command & 0xE0 == 0xE0 { 0 } else { usize::from(num) };
            finish_at(6 + data, collected)
        }
    }
}

/// LECOM "starts anew at EOT and ends at ENQ where no STX has come, else with the byte after ETX".
pub fn lecom(collected: &[u8], byte: u8) -> Step {
    let stx = collected.iter().position(|&byte| byte == 0x02);
    let has_etx = stx.is_some_and(|stx| collected[stx..].contains(&0x03));
    match byte {
        _ if has_etx && collected.len() == 25 => Step::Drop,
        _ if has_etx => Step::Finish,
        0x04 => Step::Anew,
        _ if collected.is_empty() || collected.len() == 25 => Step::Drop,
        0x05 if stx.is_none() => Step::Finish,
        _ => Step::Keep,
    }
}

/// Love "runs from STX to ETX; a later STX starts anew".
pub fn love(collected: &[u8], byte: u8) -> Step {
    match byte {
        0x02 => Step::Anew,
        _ if collected.is_empty() || collected.len() == 32 => Step::Drop,
        0x03 => Step::Finish,
        _ => Step::Keep,
    }
}

/// "LucidControl counts from LEN."
pub fn lucid(collected: &[u8], byte: u8) -> Step {
    match *collected {
        [_, _, _] if byte == 0 => Step::Finish,
        [_, _, _, len, ..] => finish_at(4 + usize::from(len), collected),
        _ => Step::Keep,
    }
}

/// What a byte does in a frame of a known length.
fn finish_at(length: usize, collected: &[u8]) -> Step {
    if collected.len() + 1 == length {
        Step::Finish
    } else {
        Step::Keep
    }
}

/// A receiver's part frame, with what stands behind its count.
#[derive(Clone, PartialEq, Eq, Debug)]
pub struct Plain {
    pub count: usize,
    pub bytes: Vec<u8>,
}

impl Plain {
    /// Takes bytes until a frame is finished; gives how many were taken, and the frame.
    pub fn receive(&mut self, step: fn(&[u8], u8) -> Step, bytes: &[u8]) -> (usize, Vec<u8>) {
        for (place, &byte) in bytes.iter().enumerate() {
            match step(&self.bytes[..self.count], byte) {
                Step::Keep => {
                    self.bytes[self.count] = byte;
                    self.count += 1;
                }
                Step::Anew => {
                    self.bytes[0] = byte;
                    self.count = 1;
                }
                Step::Drop => self.count = 0,
                Step::Finish => {
                    let frame = [&self.bytes[..self.count], &[byte]].concat();
                    self.count = 0;
                    return (place + 1, frame);
                }
            }
        }
        (bytes.len(), vec![])
    }

    /// Whether bytes lead to it from rest: its own do, if any do.
    pub fn is_reached(&self, step: fn(&[u8], u8) -> Step) -> bool {
        self.count <= self.bytes.len()
            && (0..self.count).all(|place| {
                let done = step(&self.bytes[..place], self.bytes[place]);
                done == Step::Keep || done == Step::Anew && place == 0
            })
    }
}
