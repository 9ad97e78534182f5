//! A scene with every coordinate times ten. As long as that moves none of them out of range, the scene has the answer that it had: number, place, vectors,
//! cells and list.

use crate::plane::LIMIT;
use crate::scene::{body_length, LINE_HALF, POINT, REGION_HALF};

/// The bytes with every coordinate of theirs times ten; none if one that is in range would leave it. What is out of range stays so, within 32 bits. From a
/// record that is cut, or of no kind, the bytes are as they were.
pub fn bytes(scene: &[u8]) -> Option<Vec<u8>> {
    let mut scaled = scene.to_vec();
    let mut at = 0;
    while let Some(length) = scene.get(at).and_then(|kind| body_length(*kind)) {
        let coordinates = match scene[at] {
            POINT => 2,
            LINE_HALF | REGION_HALF => 4,
            _ => 0,
        };
        let Some(body) = scaled.get_mut(at + 1..at + 1 + length) else { break };
        for coordinate in body.chunks_exact_mut(4).take(coordinates) {
            let value = i32::from_le_bytes(coordinate.try_into().ok()?) as i64;
            if value.abs() <= LIMIT && 10 * value.abs() > LIMIT {
                return None;
            }
            let tenfold = (10 * value).clamp(i32::MIN as i64, i32::MAX as i64) as i32;
            coordinate.copy_from_slice(&tenfold.to_le_bytes());
        }
        at += 1 + length;
    }
    Some(scaled)
}
