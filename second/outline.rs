//! The outline as two chains (request E5), south and north: written to two buffers, and the filled part of one.

use crate::patch::{Patch, Refusal};

/// Puts each chain at the front of its buffer, and says how long they are.
pub fn write_chains(patch: &Patch, buffers: [&mut [u8]; 2]) -> Result<[usize; 2], Refusal> {
    let chains = patch.chains();
    if chains.iter().zip(&buffers).any(|(chain, buffer)| chain.len() > buffer.len()) {
        return Err(Refusal::NoRoom);
    }
    for (chain, buffer) in chains.iter().zip(buffers) {
        let bytes: Vec<_> = chain.iter().map(|&shot| shot as u8).collect();
        buffer[..bytes.len()].copy_from_slice(&bytes);
    }
    Ok(chains.map(|chain| chain.len()))
}

/// The front of a buffer, empty where the length exceeds the buffer.
pub fn part(buffer: &[u8], length: u64) -> &[u8] {
    usize::try_from(length).ok().and_then(|length| buffer.get(..length)).unwrap_or_default()
}
