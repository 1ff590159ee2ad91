//! Short traces that end anywhere.

use super::scene::Scene;
use crate::opened::opening;
use crate::rng::Rng;
use handler::Edition;

/// Records that end around the block sizes with which a program may read or
/// write.
fn large(edition: Edition) -> &'static [usize] {
    match edition {
        Edition::Alerts64 => &[170, 171, 341, 682, 1023, 1024, 1025, 2730, 8192, 8193],
        Edition::Alerts248 => &[58, 59, 117, 468, 936, 937, 2047, 2048, 2049, 8193],
        Edition::Pings | Edition::Wires => &[54, 55, 109, 436, 873, 874, 2047, 2048, 2049, 8193],
    }
}

/// A short trace with any N and any rest; sometimes no bytes, or no N.
pub fn ends(edition: Edition, mut rng: Rng) -> Vec<u8> {
    let most = edition.alerts() as u8;
    let n = match rng.below(4) {
        0 => rng.pick(&[0, most + 1, 255]),
        1 => rng.pick(&[1, most]),
        2 => rng.below(256) as u8,
        _ => 1 + rng.below(most.into()) as u8,
    };
    let mut scene = Scene::new(edition, rng, n);
    let large = scene.rng.pick(large(edition));
    let few = scene.rng.index(5);
    let records = scene.rng.pick(&[few, few, large]);
    for _ in 0..records {
        scene.watch();
    }
    let size = edition.bytes();
    let before = opening(edition, n).len();
    let to_block = (4096 - (before + size * records) % 4096) % 4096;
    let any = scene.rng.index(size);
    scene.tail(if to_block < size { to_block } else { any });
    let nothing = scene.rng.once_in(8);
    let bytes = scene.finish();
    if nothing {
        edition.mark().into_iter().collect()
    } else {
        bytes
    }
}
