//! Traces of weighted steps.

use super::profile::{profile, Values, Weights};
use super::scene::Scene;
use super::{counts, Kind};
use crate::rng::Rng;
use handler::Edition;

/// Configures, then takes weighted steps.
pub fn play(edition: Edition, mut rng: Rng, kind: Kind) -> Vec<u8> {
    let n = rng.pick(counts(edition));
    let mut scene = Scene::new(edition, rng, n);
    let (values, weights) = profile(kind);
    scene.calm = match kind {
        Kind::Accumulate => 3,
        Kind::Timeout => 16,
        _ => scene.rng.pick(&[4, 8, 20]),
    };
    // A start under LOCK comes once for each class, so the clear one tick
    // after it needs all at rest until then.
    scene.moving = kind != Kind::Locks;
    scene.set_up(&values);
    if kind == Kind::Shadow {
        // A write that differs is then an event.
        scene.configure_local(5);
    }
    if kind == Kind::Locks {
        scene.burst(1);
    }
    for _ in 0..400 {
        step(&mut scene, &values, &weights);
    }
    scene.finish()
}

/// One weighted step.
pub fn step(scene: &mut Scene, values: &Values, weights: &Weights) {
    match scene.rng.weighted(weights) {
        0 => scene.watch(),
        1 => scene.none(),
        2 => scene.clear(),
        3 => scene.interrupts(),
        4 => scene.cause(),
        5 => scene.change(values),
        6 => scene.lock(),
        7 => scene.refused(values),
        8 => scene.malformed(),
        9 => scene.stage(values),
        10 => {
            let gap = scene.rng.pick(&[0, 1, 1, 2]);
            scene.burst(gap);
        }
        _ => scene.threshold(),
    }
}
