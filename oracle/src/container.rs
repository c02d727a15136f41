//! A container holds many plans in one file: for each its length as four
//! little-endian bytes, then its bytes.

use std::io;

/// Splits a container into its plans.
pub fn split(file: &[u8]) -> io::Result<Vec<&[u8]>> {
    let broken = || io::Error::new(io::ErrorKind::InvalidData, "the container is cut short");
    let mut plans = Vec::new();
    let mut rest = file;
    while !rest.is_empty() {
        let (length, after) = rest.split_first_chunk::<4>().ok_or_else(broken)?;
        let (plan, after) = after
            .split_at_checked(u32::from_le_bytes(*length) as usize)
            .ok_or_else(broken)?;
        plans.push(plan);
        rest = after;
    }
    Ok(plans)
}

/// Appends a plan to a container.
pub fn push(out: &mut Vec<u8>, plan: &[u8]) {
    let length = u32::try_from(plan.len()).expect("a plan below 4 GB");
    out.extend_from_slice(&length.to_le_bytes());
    out.extend_from_slice(plan);
}
