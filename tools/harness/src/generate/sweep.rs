//! A trace over every register number.

use super::profile::profile;
use super::scene::Scene;
use super::{counts, far, Kind, WRITTEN};
use crate::record::largest;
use crate::rng::Rng;
use handler::registers::Field;
use handler::{Edition, Wires};

/// Writes every register number, assigned or not, mostly twice, then reads
/// every one.
pub fn sweep(edition: Edition, mut rng: Rng) -> Vec<u8> {
    let n = rng.pick(counts(edition));
    let mut scene = Scene::new(edition, rng, n);
    let (far, largest) = (far(scene.map), largest(edition));
    let (values, _) = profile(Kind::Mixed);
    scene.set_up(&values);
    // From the top down half of the time, so that a REGWEN locks before or
    // after the write of what it guards.
    let down = scene.rng.once_in(2);
    for at in 0..=largest {
        let register = if down { largest - at } else { at };
        if register < far || scene.rng.once_in(8) {
            let value = scene.rng.pick(&WRITTEN);
            scene.write(register, value);
            match scene.rng.below(8) {
                0 => {}
                1 => scene.write(register, value ^ 1),
                _ => scene.write(register, value),
            }
            // Read at once, and again below when more is locked.
            scene.read(register);
        }
    }
    for register in 0..=largest {
        if register < far || scene.rng.once_in(8) {
            scene.read(register);
        }
    }
    raise_each(&mut scene);
    break_each(&mut scene);
    scene.finish()
}

/// Enables every alert and raises one after another: in that tick its cause is
/// cleared, and read in the next.
fn raise_each(scene: &mut Scene) {
    let map = scene.map;
    scene.moving = false;
    (scene.pos, scene.neg) = (Wires::REST.pos, Wires::REST.neg);
    // A drop and the pause, wherever an alert stands.
    (0..3).for_each(|_| scene.none());
    for i in 0..scene.n {
        scene.configure(map.alert(Field::En, i), 1);
    }
    for i in 0..scene.n {
        scene.set(i, (1, 0));
        scene.write(map.alert(Field::Cause, i), 1);
        scene.set(i, (0, 1));
        scene.read(map.alert(Field::Cause, i));
    }
}

/// Breaks one alert's wires after another: in that tick the cause of local 2
/// is cleared, and read in the next.
fn break_each(scene: &mut Scene) {
    let map = scene.map;
    scene.configure(map.local(Field::En, 2), 1);
    for i in 0..scene.n {
        let level = scene.rng.below(2);
        scene.set(i, (level, level));
        scene.write(map.local(Field::Cause, 2), 1);
        scene.set(i, (0, 1));
        scene.read(map.local(Field::Cause, 2));
    }
}
