//! Long traces: an accumulator at its end, and long phases.

use super::edges::{DOWN, HANDSHAKE, UP};
use super::play::step;
use super::profile::profile;
use super::scene::Scene;
use super::Kind;
use crate::rng::Rng;
use handler::registers::{Field, Setting, INTR_ENABLE, INTR_STATE, INTR_TEST};
use handler::registers::{PING_ENABLE, PING_TIMEOUT};
use handler::{Edition, CLASSES};

/// The most events an accumulator counts.
const MOST: u64 = 65535;

/// Drives one accumulator to its end while another class takes long phases,
/// then goes on with weighted steps.
pub fn long(edition: Edition, mut rng: Rng, seed: u64) -> Vec<u8> {
    let n = rng.pick(match edition {
        Edition::Alerts64 => &[4, 9, 64],
        Edition::Alerts248 => &[4, 65, 248],
        Edition::Pings | Edition::Wires => &[9, 65, 248],
    });
    let mut scene = Scene::new(edition, rng, n);
    scene.active = vec![0, scene.n - 1, 1, scene.n - 2];
    scene.equal = 0;
    scene.moving = false;
    // The reference beside would take most of the time: receive pairs at rest.
    scene.lines = None;
    let (k, map) = (scene.focus, scene.map);
    // In turn: four alerts take turns, two of them, equal wires.
    let way = seed % 3;
    set_up(&mut scene, way);
    if map.timer {
        set_up_timer(&mut scene, way);
    }
    let other = (k + 1) % CLASSES;
    let watched = [
        map.class(k, Setting::AccumCnt),
        map.class(k, Setting::State),
        map.class(other, Setting::EscCnt),
        map.class(k, Setting::AccumCnt),
        map.class(other, Setting::State),
        map.class(k, Setting::EscCnt),
        INTR_STATE,
    ];
    let ticks = if way == 1 { 2 * MOST + 60 } else { MOST + 30 };
    for at in 0..ticks {
        drive(&mut scene, way, at);
        // Seven is prime to two, so both halves of a rhythm are read.
        scene.read(watched[(at % 7) as usize]);
    }
    scene.moving = true;
    let (values, weights) = profile(Kind::Mixed);
    for _ in 0..300 {
        step(&mut scene, &values, &weights);
    }
    scene.finish()
}

/// Configures the two classes of a long trace.
fn set_up(scene: &mut Scene, way: u64) {
    let (k, map) = (scene.focus, scene.map);
    let other = (k + 1) % CLASSES;
    let enabled = [4, 2, 1][way as usize];
    for (at, i) in scene.active.clone().into_iter().enumerate() {
        scene.configure(map.alert(Field::Class, i), k as u32);
        scene.configure(map.alert(Field::En, i), u32::from(at < enabled));
    }
    if way == 2 {
        scene.configure(map.local(Field::Class, 2), k as u32);
        scene.configure(map.local(Field::En, 2), 1);
    }
    let threshold = scene.rng.pick(&[65535, 65535, 65534, 65533]);
    scene.configure(map.class(k, Setting::AccumThresh), threshold);
    for (phase, length) in Setting::PHASES.into_iter().zip([3, 0, 1, 2]) {
        scene.configure(map.class(k, phase), length);
    }
    scene.configure(map.class(k, Setting::Ctrl), 0x393D);
    // The other class starts by a timeout and ends before the accumulator.
    for (phase, length) in Setting::PHASES.into_iter().zip([255, 256, 1000, 60000]) {
        scene.configure(map.class(other, phase), length);
    }
    scene.configure(map.class(other, Setting::TimeoutCyc), 257);
    scene.configure(map.class(other, Setting::Ctrl), 0x1B3D);
    scene.write(INTR_ENABLE, 15);
    scene.write(INTR_TEST, 1 << other);
}

/// Alert 2, which rests, is pinged and never answers: of the longest wait and the longest timeout where there is time for both,
/// else of a timeout at its end alone.
fn set_up_timer(scene: &mut Scene, way: u64) {
    let (k, map) = (scene.focus, scene.map);
    let class = (k + 2) % CLASSES;
    scene.configure(map.class(class, Setting::Ctrl), 0x393D);
    scene.configure(map.local(Field::Class, 0), class as u32);
    scene.configure(map.local(Field::En, 0), 1);
    scene.configure(map.alert(Field::En, 2), 1);
    scene.write(map.alert(Field::Regwen, 2), 0);
    let timeout = scene.rng.pick(&[65534, 65535]);
    scene.configure(PING_TIMEOUT, timeout);
    if let Some(entropy) = &mut scene.entropy {
        entropy.target = 2;
        entropy.stirs = u64::MAX;
        entropy.waits = if way == 1 { &[65535] } else { &[0] };
    }
    scene.write(PING_ENABLE, 1);
}

/// The wires that give an event in each tick, or in each second one: an alert rises once in a handshake, and is at rest else.
fn drive(scene: &mut Scene, way: u64, at: u64) {
    let turn = at as usize % HANDSHAKE;
    match way {
        0 => raise(scene, turn),
        1 if turn % 2 == 0 => raise(scene, turn / 2),
        1 => scene.set_active(DOWN),
        _ => scene.set(0, if at % 2 == 0 { (0, 0) } else { (1, 1) }),
    }
}

/// One of the active alerts is up, the others are at rest.
fn raise(scene: &mut Scene, at: usize) {
    scene.set_active(DOWN);
    scene.set(scene.active[at], UP);
}
