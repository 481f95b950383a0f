//! The entry on two specs, and what stands in for it where the comparison itself is tested.

use vasigmon::raw::Collision;

/// The entry, called on slices: both specs, and the buffer for a destination.
pub type Entry = fn(&[u8], &[u8], &mut [u8]) -> Collision;

/// The archive's.
pub const ENTRY: Entry = vasigmon::raw::collide;

/// The paper's reading behind the interface's numbers and buffer.
#[cfg(test)]
pub const MODEL: Entry = |first, second, out| match paper::collide(first, second) {
    Err(why) => super::refusal(why),
    Ok(None) => Collision::default(),
    Ok(Some(destination)) if destination.len() > out.len() => {
        Collision { refusal: 17, length: destination.len() as u64, ..Default::default() }
    }
    Ok(Some(destination)) => {
        out[..destination.len()].copy_from_slice(&destination);
        Collision { collides: 1, length: destination.len() as u64, ..Default::default() }
    }
};
