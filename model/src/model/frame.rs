//! Frames of the probe's protocol: a line of hexadecimal capitals, taken apart.

/// A frame of the probe.
#[derive(Clone, Copy, Debug, PartialEq, Eq)]
pub enum Frame {
    Format(u32),
    Insert(u32, u32),
    Delete(u32),
    LookUp(u32),
    Commit(u32),
    Mount(u32),
    Report(u32),
    Show(u32),
    Forecast,
    Rebuild(u32),
    Blocks(u32),
    Length(u32),
    SetImage(u32, u8),
    SetTorn(u32, u8),
    TornLength(u32),
    Sum,
    Noise(u32),
    Name(u8),
}

/// The number of hexadecimal capitals; none when a byte is no digit.
pub fn hexadecimal(digits: &[u8]) -> Option<u32> {
    let mut number = 0u32;
    for digit in digits {
        let value = match digit {
            b'0'..=b'9' => digit - b'0',
            b'A'..=b'F' => digit - b'A' + 10,
            _ => return None,
        };
        number = (number << 4) | value as u32;
    }
    Some(number)
}

/// The frame of a line, none when it is no frame.
pub fn parse(line: &[u8]) -> Option<Frame> {
    let kind = hexadecimal(line.get(..2)?)?;
    let rest = &line[2..];
    match (kind, rest.len()) {
        (0x09, 0) => Some(Frame::Forecast),
        (0x15, 0) => Some(Frame::Sum),
        (0x17, 2) => Some(Frame::Name(hexadecimal(rest)? as u8)),
        (0x01, 16) => Some(Frame::Insert(hexadecimal(&rest[..8])?, hexadecimal(&rest[8..])?)),
        (0x12, 10) => Some(Frame::SetImage(hexadecimal(&rest[..8])?, hexadecimal(&rest[8..])? as u8)),
        (0x13, 10) => Some(Frame::SetTorn(hexadecimal(&rest[..8])?, hexadecimal(&rest[8..])? as u8)),
        (_, 8) => single(kind, hexadecimal(rest)?),
        _ => None,
    }
}

/// The frame of a kind with one number.
fn single(kind: u32, number: u32) -> Option<Frame> {
    Some(match kind {
        0x00 => Frame::Format(number),
        0x02 => Frame::Delete(number),
        0x03 => Frame::LookUp(number),
        0x04 => Frame::Commit(number),
        0x05 => Frame::Mount(number),
        0x06 => Frame::Report(number),
        0x07 => Frame::Show(number),
        0x0A => Frame::Rebuild(number),
        0x10 => Frame::Blocks(number),
        0x11 => Frame::Length(number),
        0x14 => Frame::TornLength(number),
        0x16 => Frame::Noise(number),
        _ => return None,
    })
}

/// The line of a frame.
pub fn line(frame: &Frame) -> String {
    match *frame {
        Frame::Format(n) => format!("00{n:08X}"),
        Frame::Insert(key, value) => format!("01{key:08X}{value:08X}"),
        Frame::Delete(n) => format!("02{n:08X}"),
        Frame::LookUp(n) => format!("03{n:08X}"),
        Frame::Commit(n) => format!("04{n:08X}"),
        Frame::Mount(n) => format!("05{n:08X}"),
        Frame::Report(n) => format!("06{n:08X}"),
        Frame::Show(n) => format!("07{n:08X}"),
        Frame::Forecast => "09".to_string(),
        Frame::Rebuild(n) => format!("0A{n:08X}"),
        Frame::Blocks(n) => format!("10{n:08X}"),
        Frame::Length(n) => format!("11{n:08X}"),
        Frame::SetImage(at, byte) => format!("12{at:08X}{byte:02X}"),
        Frame::SetTorn(at, byte) => format!("13{at:08X}{byte:02X}"),
        Frame::TornLength(n) => format!("14{n:08X}"),
        Frame::Sum => "15".to_string(),
        Frame::Noise(n) => format!("16{n:08X}"),
        Frame::Name(part) => format!("17{part:02X}"),
    }
}
