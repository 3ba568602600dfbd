//! The decoder of readings and the order of their ticks, written from the specification's text and from nothing of
//! ours: the comparison judges by it. The ratio is Rust's own division, and the order its own wrapping subtraction.

/// Up to here every whole number is an f64, so a counter loses nothing when it is turned into one.
const MOST: u64 = 1 << 53;

/// The ratio and the tick, or the number of what is wrong.
pub fn decode(message: &[u8]) -> Result<(f64, u32), u8> {
    if message.len() != 20 {
        return Err(17);
    }
    let tick = u32::from_le_bytes(message[..4].try_into().unwrap());
    let resident = u64::from_le_bytes(message[4..12].try_into().unwrap());
    let active = u64::from_le_bytes(message[12..].try_into().unwrap());
    if resident > MOST || active > MOST {
        return Err(18);
    }
    if active > resident {
        return Err(19);
    }
    if resident == 0 {
        return Err(20);
    }
    Ok(((resident - active) as f64 / resident as f64, tick))
}

/// Whether a reading with the tick `a` is newer than one with the tick `b`. Half-way round neither is newer.
pub fn newer(a: u32, b: u32) -> bool {
    (1..1 << 31).contains(&a.wrapping_sub(b))
}
