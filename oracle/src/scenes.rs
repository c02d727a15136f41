//! Random plans. Plan `index` of a seed depends on the two alone. A scene is built
//! on its joints (poses first, then frames that meet there), then disturbed: off the
//! joints, far out, heavy, spinning, at the edge of a range, or damaged as a file.

use crate::draft::{
    BALL, CONE_TWIST, CYLINDRICAL, DISTANCE, Draft, HINGE, Joint, Order, PLANAR, body_record,
    joint_record, put_quat, put_vector, quat, time_record, vector,
};
use crate::random::{Random, turn, two_to};
use kapitsa_core::plan::{Room, pose};
use kapitsa_core::step::Answer;
use kapitsa_math::{Mat3, Quat, Vec3};
use std::f64::consts::PI;

/// A plan and what it was made for.
pub struct Scene {
    pub family: &'static str,
    pub topology: &'static str,
    pub plan: Vec<u8>,
}

type Edges = Vec<(usize, usize)>;

/// Plan `index` of a seed. The room lets the edge families ask the oracle where an
/// answer changes.
pub fn scene(seed: u64, index: u64, room: &mut Room) -> Scene {
    let random = &mut Random::new(seed, index);
    let order = match random.below(8) {
        0 => Order::JointsFirst,
        1 => Order::TimeLast,
        2 => Order::Mixed,
        _ => Order::Plain,
    };
    let (family, topology, draft) = match random.below(200) {
        0..100 => motion(random),
        100..104 => overflow(random),
        104..114 => neat(random),
        114..116 => zero_signs(random),
        116..120 => welded(random),
        120..122 => overrun(random),
        122..130 => spin(random),
        130..136 => extreme(random),
        136..144 => degenerate(random),
        144..148 => ground(random),
        148..168 => edge(random, room),
        168..178 => range(random),
        178..182 => several_faults(random),
        182..184 => odd_number(random),
        _ => return reader(random),
    };
    Scene {
        family,
        topology,
        plan: draft.bytes(order, random),
    }
}

type Made = (&'static str, &'static str, Draft);

// ---------------------------------------------------------------- topology

fn shuffle<T>(random: &mut Random, items: &mut [T]) {
    for last in (1..items.len()).rev() {
        items.swap(last, random.below(last + 1));
    }
}

/// Small counts more often than large ones.
fn small(random: &mut Random, low: usize, high: usize) -> usize {
    let wide = if random.once_in(4) {
        high
    } else {
        (low + 3).min(high)
    };
    random.within(low, wide)
}

fn chain(count: usize) -> Edges {
    (1..count).map(|body| (body - 1, body)).collect()
}

/// Name, bodies and joined pairs. At most sixteen of each.
fn topology(random: &mut Random) -> (&'static str, usize, Edges) {
    match random.below(40) {
        0..2 => ("free", small(random, 1, 16), Vec::new()),
        2..6 => ("pair", 2, vec![random.pick(&[(0, 1), (1, 0)])]),
        6..13 => {
            let count = small(random, 2, 16);
            ("chain", count, chain(count))
        }
        13..15 => {
            let count = small(random, 3, 16);
            let mut edges = chain(count);
            shuffle(random, &mut edges);
            for edge in &mut edges {
                if random.coin() {
                    *edge = (edge.1, edge.0);
                }
            }
            ("chain-shuffled", count, edges)
        }
        15..19 => {
            let count = small(random, 4, 16);
            let mut edges: Edges = (1..count).map(|body| (random.below(body), body)).collect();
            if random.once_in(3) {
                shuffle(random, &mut edges);
            }
            ("tree", count, edges)
        }
        19..20 => {
            let count = small(random, 4, 16);
            ("star", count, (1..count).map(|body| (0, body)).collect())
        }
        20..23 => {
            let count = small(random, 3, 16);
            let mut edges = chain(count);
            edges.push((count - 1, 0));
            ("ring", count, edges)
        }
        23..25 => {
            let ring = small(random, 3, 12);
            let spare = random.within(1, (16 - ring).min(3));
            let mut edges = chain(ring);
            edges.push((ring - 1, 0));
            ("ring-and-free", ring + spare, edges)
        }
        25..27 => {
            // A ring with a tail, and a lone body so that joints are fewer.
            let ring = random.within(3, 6);
            let tail = random.within(1, 5);
            let spare = random.below(3);
            let mut edges = chain(ring + tail);
            edges.push((ring - 1, 0));
            ("lasso", ring + tail + spare, edges)
        }
        27..29 => {
            // A pair of the chain joined twice by neighbouring records.
            let count = small(random, 2, 10);
            let mut edges = chain(count);
            let place = random.below(edges.len());
            edges.insert(place, edges[place]);
            if count > 3 && random.once_in(3) {
                edges.insert(place, edges[place]);
            }
            let spare = random.pick(&[0, 1, 1, 2, 3]);
            ("pair-doubled", count + spare, edges)
        }
        29..30 => {
            // Doubled with another joint between the two records.
            let count = small(random, 3, 10);
            let mut edges = chain(count);
            edges.push(edges[0]);
            ("pair-split", count + random.pick(&[0, 1, 2]), edges)
        }
        30..31 => {
            let count = small(random, 2, 10);
            let mut edges = chain(count);
            let place = random.below(edges.len());
            edges.insert(place, (edges[place].1, edges[place].0));
            ("pair-reversed", count + random.pick(&[0, 1, 2]), edges)
        }
        31..33 => {
            // Rails and rungs; three joints for two bodies.
            let rungs = random.within(2, 5);
            let mut edges = Vec::new();
            for rung in 0..rungs {
                edges.push((2 * rung, 2 * rung + 1));
                if rung > 0 {
                    edges.push((2 * rung - 2, 2 * rung));
                    edges.push((2 * rung - 1, 2 * rung + 1));
                }
            }
            let spare = random.pick(&[0, 0, 4, 6]);
            ("ladder", 2 * rungs + spare, edges)
        }
        33..35 => {
            let count = random.within(2, 8);
            let joints = random.within(count, 16);
            let edges = (0..joints)
                .map(|_| {
                    let a = random.below(count);
                    (a, (a + random.within(1, count - 1)) % count)
                })
                .collect();
            ("mesh", count, edges)
        }
        35..37 => {
            // Chains apart from one another, their records mixed.
            let mut edges = Edges::new();
            let mut count = 0;
            for _ in 0..random.within(2, 4) {
                let length = random.within(1, 4);
                edges.extend(chain(length).iter().map(|(a, b)| (a + count, b + count)));
                count += length;
            }
            if random.coin() {
                shuffle(random, &mut edges);
            }
            ("islands", count, edges)
        }
        37..38 => {
            // Many joints on one pair.
            let joints = random.within(2, 16);
            let edges = vec![(0, 1); joints];
            ("pair-many", random.pick(&[2, 3, 16]), edges)
        }
        38..39 => {
            let mut edges = chain(16);
            if random.coin() {
                edges.push((15, 0));
            }
            ("full-house", 16, edges)
        }
        _ => {
            let count = small(random, 3, 12);
            let used = random.within(2, count - 1);
            ("chain-and-free", count, chain(used))
        }
    }
}

// ---------------------------------------------------------------- poses

/// Inertia of a box turned within its body, even to the bit.
fn inertia(random: &mut Random, mass: f64, size: f64) -> [f64; 9] {
    let square = mass * size * size;
    let diagonal = Vec3::new(
        square * random.range(0.1, 0.3),
        square * random.range(0.1, 0.3),
        square * random.range(0.1, 0.3),
    );
    if random.once_in(3) {
        return Mat3::from_diagonal(diagonal).to_cols_array();
    }
    turned_inertia(diagonal, random.rotation())
}

fn turned_inertia(diagonal: Vec3, rotation: Quat) -> [f64; 9] {
    let rotation = rotation.to_mat3().expect("a unit quaternion");
    let matrix = rotation * Mat3::from_diagonal(diagonal) * rotation.transpose();
    let mut numbers = matrix.to_cols_array();
    numbers[3] = numbers[1];
    numbers[6] = numbers[2];
    numbers[7] = numbers[5];
    numbers
}

fn world_center(body: &[f64; 26]) -> Vec3 {
    let rotated = quat(&body[3..7])
        .rotate_vector(vector(&body[14..17]))
        .expect("finite numbers");
    vector(&body[0..3]) + rotated
}

fn bodies(random: &mut Random, count: usize) -> Vec<[f64; 26]> {
    let spacing = random.range(0.5, (48.0 / count.max(1) as f64).min(8.0));
    let along = random.direction();
    let base = random.vector(10.0);
    let cloud = random.once_in(3);
    let tilt = random.below(3);
    let mass_spread = random.once_in(5);
    let with_centre = random.below(3);
    (0..count)
        .map(|index| {
            let mut body = [0.0; 26];
            let origin = if cloud {
                base + random.vector(spacing * 2.0)
            } else {
                base + along * (spacing * index as f64) + random.vector(spacing * 0.2)
            };
            put_vector(&mut body[0..3], origin);
            let rotation = match tilt {
                0 => Quat::IDENTITY,
                1 => turn(random.direction(), random.range(-0.3, 0.3)),
                _ => random.rotation(),
            };
            put_quat(&mut body[3..7], rotation);
            let mass = if mass_spread {
                random.power(-10, 19)
            } else {
                random.power(-1, 6)
            };
            body[13] = mass;
            let center = match with_centre {
                0 => Vec3::ZERO,
                1 => random.vector(0.5),
                _ => random.vector(spacing),
            };
            put_vector(&mut body[14..17], center);
            body[17..26].copy_from_slice(&inertia(random, mass, spacing));
            body
        })
        .collect()
}

/// Velocities: at rest, one rigid motion for all, or each its own.
fn move_bodies(random: &mut Random, bodies: &mut [[f64; 26]], calm: bool) {
    let speed = random.power(-8, 0);
    let own = random.power(-10, 0);
    let spread = if calm { 0.0 } else { 1.0 };
    let style = random.below(10);
    let (linear, angular) = (random.vector(speed), random.vector(speed));
    let pivot = bodies.first().map_or(Vec3::ZERO, world_center);
    for body in bodies {
        let center = world_center(body);
        let rigid = linear + angular.cross(center - pivot);
        let (v, w) = match style {
            0 => (Vec3::ZERO, Vec3::ZERO),
            1 | 2 => (rigid, angular),
            3..6 => (
                rigid + random.vector(own) * spread,
                angular + random.vector(own) * spread,
            ),
            _ if calm => (rigid, angular),
            _ => (random.vector(own), random.vector(own)),
        };
        put_vector(&mut body[7..10], v);
        put_vector(&mut body[10..13], w);
    }
}

// ---------------------------------------------------------------- joints

/// A cone twist's numbers and the relative rotation that meets them.
fn cone_twist(random: &mut Random) -> ([f64; 4], Quat) {
    let locked = [random.coin(), random.coin()];
    let swing = locked.map(|locked| {
        if !locked {
            PI
        } else if random.once_in(3) {
            -0.0
        } else {
            0.0
        }
    });
    let twist_locked = random.coin();
    let (lower, upper) = if twist_locked {
        let value = match random.below(6) {
            0 => 0.0,
            1 => random.pick(&[-4.0, 4.0, -3.0, 3.0, 1.5]),
            _ => random.range(-3.0, 3.0),
        };
        if value == 0.0 {
            random.pick(&[(0.0, 0.0), (-0.0, 0.0), (0.0, -0.0), (-0.0, -0.0)])
        } else {
            (value, value)
        }
    } else {
        random.pick(&[(-PI, PI), (-4.0, 4.0), (-PI, 4.0), (-3.5, 3.5), (-4.0, PI)])
    };
    let angle = if twist_locked {
        lower
    } else {
        random.range(-3.0, 3.0)
    };
    let mut bend = random.vector(0.6);
    bend.z = 0.0;
    if locked[0] {
        bend.x = 0.0;
    }
    if locked[1] {
        bend.y = 0.0;
    }
    let w = (1.0 - bend.length_squared()).sqrt();
    let mut relative = Quat::new(bend.x, bend.y, 0.0, w) * turn(Vec3::Z, angle);
    if random.once_in(4) {
        relative = Quat::new(-relative.x, -relative.y, -relative.z, -relative.w);
    }
    ([swing[0], swing[1], lower, upper], relative)
}

fn local_frame(body: &[f64; 26], anchor: Vec3, frame: Quat) -> [f64; 7] {
    let rotation = quat(&body[3..7]).conjugate();
    let local = rotation
        .rotate_vector(anchor - vector(&body[0..3]))
        .expect("finite numbers");
    let turned = (rotation * frame).try_normalize().expect("a rotation");
    let mut out = [0.0; 7];
    put_vector(&mut out[0..3], local);
    put_quat(&mut out[3..7], turned);
    out
}

/// A joint that the bodies meet as they stand.
fn joint(random: &mut Random, bodies: &[[f64; 26]], a: usize, b: usize, kind: u8) -> Joint {
    let frame = if random.once_in(4) {
        random.neat_rotation()
    } else {
        random.rotation()
    };
    let (ca, cb) = (world_center(&bodies[a]), world_center(&bodies[b]));
    let between = ca + (cb - ca) * random.range(0.3, 0.7) + random.vector(0.3);
    let axis = |unit: Vec3| frame.rotate_vector(unit).expect("a rotation");
    let (mut anchor_a, mut anchor_b) = (between, between);
    let frame_b;
    let mut own = Vec::new();
    match kind {
        BALL => frame_b = random.rotation(),
        HINGE => frame_b = frame * turn(Vec3::Z, random.range(-3.0, 3.0)),
        CYLINDRICAL => {
            anchor_b = between + axis(Vec3::Z) * random.range(-1.0, 1.0);
            frame_b = frame * turn(Vec3::Z, random.range(-3.0, 3.0));
        }
        PLANAR => {
            anchor_b = between
                + axis(Vec3::X) * random.range(-1.0, 1.0)
                + axis(Vec3::Y) * random.range(-1.0, 1.0);
            frame_b = frame * turn(Vec3::Z, random.range(-3.0, 3.0));
        }
        DISTANCE => {
            anchor_a = ca + random.vector(0.4);
            anchor_b = cb + random.vector(0.4);
            if (anchor_b - anchor_a).length() < 0.25 {
                anchor_b = anchor_a + axis(Vec3::X) * random.range(0.25, 2.0);
            }
            frame_b = random.rotation();
            own.push((anchor_b - anchor_a).length());
        }
        _ => {
            let (numbers, relative) = cone_twist(random);
            frame_b = frame * relative;
            own.extend(numbers);
        }
    }
    let mut numbers = local_frame(&bodies[a], anchor_a, frame).to_vec();
    numbers.extend(local_frame(&bodies[b], anchor_b, frame_b));
    numbers.extend(own);
    Joint {
        a: a as u8,
        b: b as u8,
        kind,
        numbers,
    }
}

const KINDS: [u8; 6] = [BALL, HINGE, CYLINDRICAL, PLANAR, DISTANCE, CONE_TWIST];

/// Joints of one kind, or mixed; where a pair has several, mostly such as leave it
/// free to move.
fn joints(random: &mut Random, bodies: &[[f64; 26]], edges: &Edges) -> Vec<Joint> {
    let one = random.once_in(2).then(|| random.pick(&KINDS));
    let loose = random.below(3) > 0;
    let same_pair = |edge: &(usize, usize), other: &(usize, usize)| {
        *edge == *other || *edge == (other.1, other.0)
    };
    edges
        .iter()
        .map(|edge| {
            let times = edges.iter().filter(|other| same_pair(edge, other)).count();
            let kind = if times > 1 && loose {
                if times > 3 {
                    DISTANCE
                } else {
                    random.pick(&[DISTANCE, DISTANCE, BALL, PLANAR])
                }
            } else {
                one.unwrap_or_else(|| random.pick(&KINDS))
            };
            joint(random, bodies, edge.0, edge.1, kind)
        })
        .collect()
}

/// A scene on its joints. Where joints are not fewer than bodies, random velocities
/// seldom agree with them, so most of those move as one.
fn base(random: &mut Random) -> (&'static str, Draft) {
    let (name, count, edges) = topology(random);
    let mut bodies = bodies(random, count);
    let calm = edges.len() >= count && random.below(4) > 0;
    move_bodies(random, &mut bodies, calm);
    let joints = joints(random, &bodies, &edges);
    let draft = Draft {
        dt: random.power(-11, -4),
        bodies,
        joints,
    };
    (name, draft)
}

/// A base scene with few bodies, for the families that ask the oracle often.
fn small_base(random: &mut Random) -> (&'static str, Draft) {
    loop {
        let (name, draft) = base(random);
        if draft.bodies.len() <= 5 && draft.joints.len() <= 6 {
            return (name, draft);
        }
    }
}

/// Moves everything by one offset, so that the largest coordinate is near the limit.
fn far_out(random: &mut Random, draft: &mut Draft) {
    let offset = Vec3::new(
        random.sign() * random.pick(&[0.0, 1_000.0, 4_096.0, 8_100.0]),
        random.sign() * random.pick(&[0.0, 1_000.0, 4_096.0, 8_100.0]),
        random.sign() * random.pick(&[0.0, 1_000.0, 4_096.0, 8_100.0]),
    );
    for body in &mut draft.bodies {
        let origin = vector(&body[0..3]) + offset;
        put_vector(&mut body[0..3], origin);
    }
}

/// Shifts an anchor or turns a frame off its joint.
fn defect(random: &mut Random, draft: &mut Draft) {
    let count = draft.joints.len();
    if count == 0 {
        return;
    }
    let place = random.below(count);
    let joint = &mut draft.joints[place];
    let size = random.power(-46, -3);
    let frame = 7 * random.below(2);
    if random.coin() {
        let anchor = vector(&joint.numbers[frame..]) + random.vector(size);
        put_vector(&mut joint.numbers[frame..], anchor);
    } else {
        let turned = (quat(&joint.numbers[frame + 3..]) * turn(random.direction(), size))
            .try_normalize()
            .expect("a rotation");
        put_quat(&mut joint.numbers[frame + 3..], turned);
    }
}

/// Moves an anchor a little, along one axis.
fn shift_anchor(random: &mut Random, draft: &mut Draft) {
    if !draft.joints.is_empty() {
        let place = random.below(draft.joints.len());
        let axis = random.pick(&[0, 1, 2, 7, 8, 9]);
        draft.joints[place].numbers[axis] += random.sign() * random.power(-20, -4);
    }
}

/// Changes the sign of some zeros.
fn negative_zeros(random: &mut Random, draft: &mut Draft) {
    for place in 0..draft.number_count() {
        let number = draft.number_mut(place);
        if *number == 0.0 && random.once_in(3) {
            *number = -*number;
        }
    }
}

// ---------------------------------------------------------------- families

fn motion(random: &mut Random) -> Made {
    let (name, mut draft) = base(random);
    let mut family = "motion";
    if random.once_in(6) {
        family = "far-out";
        far_out(random, &mut draft);
    }
    if random.once_in(4) {
        family = "defect";
        for _ in 0..random.within(1, 3) {
            defect(random, &mut draft);
        }
    }
    if random.once_in(10) {
        // An inertia uneven in its last bits.
        for body in &mut draft.bodies {
            for place in [18, 19, 22] {
                if random.coin() {
                    let steps = random.below(6) as u64;
                    body[place] = f64::from_bits(body[place].to_bits().wrapping_add(steps));
                }
            }
        }
    }
    if random.once_in(10) {
        negative_zeros(random, &mut draft);
    }
    if random.once_in(12) {
        draft.dt = random.power(-3, 2);
    }
    (family, name, draft)
}

/// Whole numbers, halves and zeros of either sign.
fn neat(random: &mut Random) -> Made {
    let (name, count, edges) = topology(random);
    let mut bodies = Vec::new();
    let still = random.coin();
    let turned = random.coin();
    let coordinates = [0.0, -0.0, 1.0, -1.0, 2.0, 0.5];
    for index in 0..count {
        let mut body = [0.0; 26];
        for number in &mut body[0..2] {
            *number = random.pick(&coordinates);
        }
        body[2] = index as f64 * 2.0;
        let rotation = if turned {
            random.neat_rotation()
        } else {
            Quat::IDENTITY
        };
        put_quat(&mut body[3..7], rotation);
        if !still {
            for number in &mut body[7..13] {
                *number = random.pick(&[0.0, -0.0, 0.0, -0.0, 0.25, -0.125]);
            }
        }
        body[13] = random.pick(&[1.0, 2.0, 0.5, 3.0, 1_024.0, 1.0 / 1_024.0, 1_048_576.0]);
        if random.once_in(3) {
            for number in &mut body[14..17] {
                *number = random.pick(&[0.0, -0.0, 0.5, -1.0]);
            }
        }
        for place in [17, 21, 25] {
            body[place] = random.pick(&[1.0, 1.0, 2.0, 4.0, 0.5]);
        }
        bodies.push(body);
    }
    let joints = edges
        .iter()
        .map(|(a, b)| {
            let kind = random.pick(&KINDS);
            let mut joint = joint(random, &bodies, *a, *b, kind);
            if kind != DISTANCE && random.below(4) > 0 {
                // Anchors halfway, frames along the axes.
                let (ca, cb) = (world_center(&bodies[*a]), world_center(&bodies[*b]));
                let middle = (ca + cb) * 0.5;
                let frame = random.neat_rotation();
                let mut second = frame;
                if kind == CONE_TWIST {
                    let (relative, twist) = neat_twist(random);
                    second = frame * relative;
                    joint.numbers[16..18].fill(twist);
                }
                let first = local_frame(&bodies[*a], middle, frame);
                let second = local_frame(&bodies[*b], middle, second);
                joint.numbers[0..7].copy_from_slice(&first);
                joint.numbers[7..14].copy_from_slice(&second);
            }
            joint
        })
        .collect();
    let mut draft = Draft {
        dt: random.pick(&[1.0, 0.5, 0.125, 0.015_625, 0.01]),
        bodies,
        joints,
    };
    if random.once_in(4) {
        shift_anchor(random, &mut draft);
    }
    negative_zeros(random, &mut draft);
    ("neat", name, draft)
}

/// A twist by none, a quarter or half a turn, by either quaternion, and its angle:
/// the arc tangent's ties and signs.
fn neat_twist(random: &mut Random) -> (Quat, f64) {
    let half = 0.5_f64.sqrt();
    let off = random.range(0.1, 1.9);
    let (z, w, twist) = random.pick(&[
        (0.0, 1.0, 0.0),
        (0.0, -1.0, 0.0),
        (-0.0, -1.0, -0.0),
        (half, half, PI / 2.0),
        (-half, half, -PI / 2.0),
        (half, -half, -PI / 2.0),
        (-half, -half, PI / 2.0),
        (half, half, off),
        (-half, half, -off),
        (1.0, 0.0, PI),
    ]);
    (Quat::new(0.0, 0.0, z, w), twist)
}

/// Cone twists between bodies that stand straight, where only signs of zeros and of
/// whole quaternions differ: a twist of -0 over a negative number, above all.
fn zero_signs(random: &mut Random) -> Made {
    let count = random.within(2, 3);
    let mut bodies = bodies(random, count);
    move_bodies(random, &mut bodies, false);
    let straight = |random: &mut Random| {
        let mut zero = || if random.coin() { 0.0 } else { -0.0 };
        let (x, y, z) = (zero(), zero(), zero());
        Quat::new(x, y, z, random.pick(&[1.0, -1.0]))
    };
    for body in &mut bodies {
        put_quat(&mut body[3..7], straight(random));
    }
    let joints = chain(count)
        .iter()
        .map(|(a, b)| {
            let mut made = joint(random, &bodies, *a, *b, CONE_TWIST);
            put_quat(&mut made.numbers[3..7], straight(random));
            let (second, twist) = if random.once_in(3) {
                neat_twist(random)
            } else {
                (straight(random), random.pick(&[0.0, -0.0, 0.0, 1.0e-3]))
            };
            put_quat(&mut made.numbers[10..14], second);
            let swing = random.pick(&[0.0, -0.0, PI]);
            made.numbers[14..18].copy_from_slice(&[swing, swing, twist, twist]);
            made
        })
        .collect();
    let mut draft = Draft {
        dt: random.power(-10, -4),
        bodies,
        joints,
    };
    if random.coin() {
        // At rest and off the joint, so that the first pass sees the turns as given.
        for body in &mut draft.bodies {
            body[7..13].fill(0.0);
        }
        shift_anchor(random, &mut draft);
    }
    ("zero-signs", "chain", draft)
}

/// The same joint twice or more, so that its rows depend on one another; with room
/// for the path (merged blocks and the band) or without.
fn welded(random: &mut Random) -> Made {
    let count = random.within(2, 5);
    let mut bodies = bodies(random, count);
    move_bodies(random, &mut bodies, true);
    let edges = chain(count);
    let mut joints: Vec<Joint> = Vec::new();
    for edge in &edges {
        let kind = random.pick(&KINDS);
        let first = joint(random, &bodies, edge.0, edge.1, kind);
        for _ in 0..random.pick(&[0, 0, 1, 2]) {
            joints.push(first.clone());
        }
        joints.push(first);
        if random.once_in(3) {
            let kind = random.pick(&KINDS);
            joints.push(joint(random, &bodies, edge.0, edge.1, kind));
        }
    }
    joints.truncate(16);
    let spare = random.within(0, 16 - count).min(random.pick(&[0, 3, 12]));
    for _ in 0..spare {
        let body = self::bodies(random, 1)[0];
        bodies.push(body);
    }
    let mut draft = Draft {
        dt: random.power(-10, -4),
        bodies,
        joints,
    };
    if random.once_in(8) {
        // The rows' rates overflow, yet a pivot fails first.
        defect(random, &mut draft);
        draft.dt = random.power(-1_070, -1_020);
    }
    ("welded", "welded", draft)
}

/// Neighbouring blocks of more than twelve rows together, which the band cuts off.
/// Seven rows on a pair depend on one another, so rounding decides the pivots.
fn overrun(random: &mut Random) -> Made {
    let count = random.within(3, 5);
    let mut bodies = bodies(random, count);
    move_bodies(random, &mut bodies, true);
    let heavy = random.below(count - 1);
    let mut joints = Vec::new();
    for (place, edge) in chain(count).iter().enumerate() {
        let kinds: &[u8] = if place == heavy {
            random.pick(&[
                &[HINGE, PLANAR],
                &[BALL, HINGE],
                &[HINGE, CYLINDRICAL],
                &[CYLINDRICAL, BALL],
                &[CONE_TWIST, DISTANCE, DISTANCE],
                &[HINGE, DISTANCE, DISTANCE],
            ])
        } else {
            random.pick(&[&[HINGE], &[CONE_TWIST], &[HINGE, DISTANCE], &[BALL, PLANAR]])
        };
        for kind in kinds {
            let mut made = joint(random, &bodies, edge.0, edge.1, *kind);
            if *kind == CONE_TWIST {
                // All locked, where the bodies stand: the same frame for both.
                let frame = quat(&bodies[edge.0][3..7]) * quat(&made.numbers[3..7]);
                let local = local_frame(&bodies[edge.1], Vec3::ZERO, frame);
                made.numbers[10..14].copy_from_slice(&local[3..7]);
                made.numbers[14..18].fill(0.0);
            }
            joints.push(made);
        }
    }
    while bodies.len() <= joints.len() {
        let body = self::bodies(random, 1)[0];
        bodies.push(body);
    }
    let draft = Draft {
        dt: random.power(-10, -4),
        bodies,
        joints,
    };
    ("overrun", "overrun", draft)
}

/// Turning fast: the half angles of 4, the half-step search, and the small angles
/// where no sine is taken.
fn spin(random: &mut Random) -> Made {
    let (name, mut draft) = if random.once_in(3) {
        small_base(random)
    } else {
        let count = random.within(1, 2);
        let draft = Draft {
            dt: 1.0,
            bodies: bodies(random, count),
            joints: Vec::new(),
        };
        ("free", draft)
    };
    let even = random.coin();
    draft.dt = random.pick(&[1.0, 0.5, 0.125, draft.dt]);
    let dt = draft.dt;
    for body in &mut draft.bodies {
        if even {
            // A sphere turns without its search.
            let any = random.power(-2, 4);
            let value = random.pick(&[1.0, 2.0, 0.25, any]);
            let sphere = Mat3::from_diagonal(Vec3::splat(value)).to_cols_array();
            body[17..26].copy_from_slice(&sphere);
        }
        let turning = match random.below(9) {
            0 => 8.0,
            8 => random.pick(&[1.0, 2.0, 4.0, 0.5]),
            1 => 8.0_f64.next_up(),
            2 => 16.0,
            3 => random.pick(&[1.0e-8, 2.0e-8, 0.5e-8]),
            4 => random.pick(&[1.0e-8_f64.next_down(), 2.0e-8_f64.next_down()]),
            5 => random.power(-30, -20),
            6 => random.range(7.0, 17.0),
            _ => random.range(0.5, 9.0),
        };
        let axis = if random.coin() {
            random.pick(&[Vec3::X, Vec3::Y, Vec3::Z, -Vec3::X])
        } else {
            random.direction()
        };
        if random.coin() {
            // Along an axis of a body that stands straight, the number is exact.
            put_quat(&mut body[3..7], Quat::IDENTITY);
        }
        put_vector(&mut body[10..13], axis * (turning / dt));
        if random.coin() {
            put_vector(&mut body[7..10], Vec3::ZERO);
        }
    }
    ("spin", name, draft)
}

/// Far outside what a mast does: momenta, times and inertias that leave the doubles.
fn extreme(random: &mut Random) -> Made {
    let (name, mut draft) = small_base(random);
    if draft.bodies.is_empty() {
        return ("extreme", name, draft);
    }
    for _ in 0..random.within(1, 3) {
        let place = random.below(draft.bodies.len());
        let body = &mut draft.bodies[place];
        match random.below(9) {
            0 => body[7 + random.below(3)] = random.sign() * random.power(0, 1_023),
            1 => body[10 + random.below(3)] = random.sign() * random.power(0, 1_023),
            2 => body[7 + random.below(3)] = random.sign() * random.power(2, 24),
            3 => body[10 + random.below(3)] = random.sign() * random.power(2, 24),
            4 => draft.dt = random.power(0, 1_023),
            5 => draft.dt = random.power(-1_000, -12),
            6 => {
                let factor = random.power(-900, 900);
                for number in &mut body[17..26] {
                    *number *= factor;
                }
            }
            7 => {
                let factor = random.power(-40, 40);
                for number in &mut body[17..26] {
                    *number *= factor;
                }
            }
            _ => {
                // Positive definite and not of any solid body.
                let diagonal = Vec3::new(
                    random.power(-12, 2),
                    random.power(-3, 3),
                    random.power(-2, 12),
                );
                body[17..26].copy_from_slice(&turned_inertia(diagonal, random.rotation()));
            }
        }
    }
    ("extreme", name, draft)
}

/// A jointed pair whose numbers leave the doubles, each in its own place: anchors,
/// rows, inverse inertias, impulses.
fn overflow(random: &mut Random) -> Made {
    let (name, mut draft) = loop {
        let made = small_base(random);
        if !made.1.joints.is_empty() {
            break made;
        }
    };
    let place = random.below(draft.joints.len());
    let pair = [draft.joints[place].a, draft.joints[place].b].map(usize::from);
    match random.below(9) {
        6 => {
            // So far that the anchors' lengths overflow as a sum, and the tolerance
            // with them.
            let mut velocity = Vec3::ZERO;
            let speed = random.sign() * random.range(0.8e308, 1.7e308);
            match random.below(3) {
                0 => velocity.x = speed,
                1 => velocity.y = speed,
                _ => velocity.z = speed,
            }
            for body in &mut draft.bodies {
                body[13] = 1.0;
                put_vector(&mut body[7..10], velocity);
                put_vector(&mut body[10..13], Vec3::ZERO);
            }
            draft.dt = 1.0;
        }
        7 | 8 => {
            // Heavy, off the joint and in so short a time that squares barely fit.
            for body in &mut draft.bodies {
                let factor = 1_048_576.0 / body[13];
                body[13] = 1_048_576.0;
                for number in &mut body[17..26] {
                    *number *= factor;
                }
            }
            let anchor = random.pick(&[0, 1, 2, 7, 8, 9]);
            draft.joints[place].numbers[anchor] += random.sign() * random.power(-6, -3);
            draft.dt = random.power(-516, -500);
        }
        0 => {
            // Both far away after the step, together or apart.
            let speed = random.power(1_000, 1_023);
            let direction = random.vector(1.0);
            let apart = random.coin();
            for (index, body) in pair.iter().enumerate() {
                let sign = if apart && index == 1 { -1.0 } else { 1.0 };
                let body = &mut draft.bodies[*body];
                body[13] = 1.0;
                put_vector(&mut body[7..10], direction * (speed * sign));
            }
            draft.dt = random.pick(&[1.0, 0.5, 2.0]);
        }
        1 | 2 => {
            // Inverse inertias near the largest double.
            for body in pair {
                let body = &mut draft.bodies[body];
                let numbers = if random.coin() {
                    let value = random.power(-1_022, -1_000);
                    Mat3::from_diagonal(Vec3::splat(value)).to_cols_array()
                } else {
                    // One direction weighs so little that turning its inverse
                    // overflows.
                    let diagonal = Vec3::new(
                        random.power(-1_026, -1_024),
                        random.power(-1_002, -998),
                        random.power(-1_002, -998),
                    );
                    turned_inertia(diagonal, random.rotation())
                };
                body[17..26].copy_from_slice(&numbers);
                put_vector(&mut body[10..13], Vec3::ZERO);
            }
        }
        3 => {
            // Inertias so large and axes so nearly across that a row weighs nothing.
            for body in pair {
                let body = &mut draft.bodies[body];
                let value = random.power(980, 1_021);
                let sphere = Mat3::from_diagonal(Vec3::splat(value)).to_cols_array();
                body[17..26].copy_from_slice(&sphere);
                put_vector(&mut body[10..13], Vec3::ZERO);
            }
            let mut made = joint(random, &draft.bodies, pair[0], pair[1], HINGE);
            let across = PI / 2.0 - random.power(-33, -28);
            let frame = quat(&draft.bodies[pair[0]][3..7]) * quat(&made.numbers[3..7]);
            let bent = frame * turn(Vec3::Y, across);
            let local = local_frame(&draft.bodies[pair[1]], Vec3::ZERO, bent);
            made.numbers[10..14].copy_from_slice(&local[3..7]);
            draft.joints[place] = made;
        }
        4 => {
            // Off the joint in next to no time.
            defect(random, &mut draft);
            draft.dt = random.power(-1_070, -300);
        }
        _ => {
            for body in pair {
                let body = &mut draft.bodies[body];
                let factor = random.power(300, 700) * body[13];
                for number in &mut body[17..26] {
                    *number *= factor;
                }
                put_vector(&mut body[10..13], Vec3::ZERO);
            }
            defect(random, &mut draft);
            draft.dt = random.power(-500, -12);
        }
    }
    ("overflow", name, draft)
}

/// Rows that cannot be written: anchors of a rod in one place, axes across or
/// opposed, a cone bent by half a turn, a twist half a turn from its value.
fn degenerate(random: &mut Random) -> Made {
    let (name, mut draft) = loop {
        let made = small_base(random);
        if !made.1.joints.is_empty() {
            break made;
        }
    };
    let place = random.below(draft.joints.len());
    let (a, b) = (
        usize::from(draft.joints[place].a),
        usize::from(draft.joints[place].b),
    );
    let small_angle = random.sign()
        * random.pick(&[
            0.0, 1.0e-16, 1.0e-14, 1.0e-13, 1.0e-10, 1.0e-9, 1.0e-6, 1.0e-2,
        ]);
    let choice = random.below(5);
    let kind = match choice {
        0 => DISTANCE,
        1 => random.pick(&[HINGE, CYLINDRICAL, PLANAR]),
        _ => CONE_TWIST,
    };
    let mut made = joint(random, &draft.bodies, a, b, kind);
    match choice {
        0 => {
            let anchor = draft.bodies[a][0..3].to_vec();
            let offset = random.direction() * small_angle;
            let first = local_frame(&draft.bodies[a], vector(&anchor), Quat::IDENTITY);
            let second = local_frame(&draft.bodies[b], vector(&anchor) + offset, Quat::IDENTITY);
            made.numbers[0..7].copy_from_slice(&first);
            made.numbers[7..14].copy_from_slice(&second);
            made.numbers[14] = random.pick(&[0.125, 0.25, 1.0]);
        }
        1 => {
            let angle = random.pick(&[PI / 2.0, -PI / 2.0, PI, PI / 2.0]) + small_angle;
            let turned = (quat(&made.numbers[10..14]) * turn(Vec3::X, angle))
                .try_normalize()
                .expect("a rotation");
            put_quat(&mut made.numbers[10..14], turned);
        }
        2 | 3 => {
            // Half a turn about an axis across Z.
            let (x, y) = random.pick(&[(1.0, 0.0), (0.0, 1.0), (0.6, 0.8), (-0.8, 0.6)]);
            let frame = quat(&draft.bodies[a][3..7]) * quat(&made.numbers[3..7]);
            let bent = frame * turn(Vec3::new(x, y, 0.0), PI + small_angle);
            let local = local_frame(&draft.bodies[b], Vec3::ZERO, bent);
            made.numbers[10..14].copy_from_slice(&local[3..7]);
            if choice == 3 {
                // Everything free: no rows, and no refusal.
                made.numbers[14..18].copy_from_slice(&[PI, PI, -PI, PI]);
            }
        }
        _ => {
            let value = random.pick(&[0.0, 0.5, -0.5, 0.8, -0.8]);
            let frame = quat(&draft.bodies[a][3..7]) * quat(&made.numbers[3..7]);
            let angle = value + PI * random.sign() + small_angle;
            let local = local_frame(&draft.bodies[b], Vec3::ZERO, frame * turn(Vec3::Z, angle));
            made.numbers[10..14].copy_from_slice(&local[3..7]);
            made.numbers[14..18].copy_from_slice(&[0.0, 0.0, value, value]);
        }
    }
    draft.joints[place] = made;
    ("degenerate", name, draft)
}

/// At the end of the plan's ground: some of these step over it.
fn ground(random: &mut Random) -> Made {
    let (name, mut draft) = small_base(random);
    let limit = 8_192.0;
    let axis = random.below(3);
    let sign = random.sign();
    let most = draft
        .bodies
        .iter()
        .map(|body| body[axis] * sign)
        .fold(f64::NEG_INFINITY, f64::max);
    let speed = random.power(-4, 4);
    let gap = random.pick(&[0.0, 0.5, 1.0, 1.0, 2.0]) * speed * draft.dt;
    for body in &mut draft.bodies {
        body[axis] += sign * (limit - gap - most);
        if body[axis].abs() > limit {
            body[axis] = sign * limit;
        }
        body[7 + axis] += sign * speed;
    }
    ("ground", name, draft)
}

// ---------------------------------------------------------------- edges

/// Doubles by size, so that the one halfway between two can be found.
fn place_on_line(value: f64) -> i64 {
    let bits = value.to_bits() as i64;
    if bits < 0 { i64::MIN - bits } else { bits }
}

fn from_line(place: i64) -> f64 {
    let bits = if place < 0 { i64::MIN - place } else { place };
    f64::from_bits(bits as u64)
}

/// Changes one number until the answer changes, then halves between the two until
/// they are neighbours, and takes one side.
fn edge(random: &mut Random, room: &mut Room) -> Made {
    // Either the number of the answer must change, or a count too.
    let with_counts = random.coin();
    let ask = |draft: &Draft, room: &mut Room| -> (Option<u8>, usize, usize) {
        let bytes = draft.bytes(Order::Plain, &mut Random::new(0, 0));
        let Answer {
            refusal,
            nonlinear,
            linear,
        } = pose(&bytes, room).0;
        if with_counts {
            (refusal, nonlinear, linear)
        } else {
            (refusal, 0, 0)
        }
    };
    loop {
        let (name, mut draft) = small_base(random);
        let answer = ask(&draft, room);
        for _ in 0..12 {
            let place = random.below(draft.number_count());
            let old = *draft.number_mut(place);
            let new = match random.below(10) {
                0 => -old,
                1 => old * 2.0,
                2 => old * random.power(1, 20),
                3 => old * random.power(-40, -1),
                4 => old + random.sign() * random.power(-46, 0),
                5 => random.sign() * random.power(-4, 14),
                6 => 0.0,
                7 => random.sign() * 1.0e6,
                8 => old * (1.0 + random.sign() * random.power(-46, -30)),
                _ => random.sign() * random.power(-1_000, 1_000),
            };
            *draft.number_mut(place) = new;
            if ask(&draft, room) == answer {
                *draft.number_mut(place) = old;
                continue;
            }
            let (mut same, mut other) = (place_on_line(old), place_on_line(new));
            while same.abs_diff(other) > 1 {
                let middle = ((i128::from(same) + i128::from(other)) / 2) as i64;
                *draft.number_mut(place) = from_line(middle);
                if ask(&draft, room) == answer {
                    same = middle;
                } else {
                    other = middle;
                }
            }
            *draft.number_mut(place) = from_line(if random.coin() { same } else { other });
            return ("edge", name, draft);
        }
    }
}

fn odd_double(random: &mut Random) -> f64 {
    match random.below(10) {
        0 => f64::NAN,
        1 => f64::from_bits(0x7ff0_0000_0000_0001),
        2 => f64::from_bits(0xfff8_0000_0000_0000),
        3 => f64::INFINITY,
        4 => f64::NEG_INFINITY,
        5 => f64::MAX,
        6 => f64::from_bits(1),
        7 => -f64::MIN_POSITIVE,
        8 => -0.0,
        _ => f64::from_bits(random.bits()),
    }
}

/// One number of a good plan replaced by an odd one.
fn odd_number(random: &mut Random) -> Made {
    let (name, mut draft) = small_base(random);
    let place = random.below(draft.number_count());
    *draft.number_mut(place) = odd_double(random);
    ("odd-number", name, draft)
}

/// Multiplies a rotation so that its squares are near 2^-44 off 1.
fn scale_rotation(random: &mut Random, numbers: &mut [f64]) {
    let factor = match random.below(8) {
        0 => 0.0,
        1 => 1.0e200,
        2 => 1.0e-200,
        3 => 1.0 + 8.0 * f64::EPSILON,
        _ => {
            let eighths = random.pick(&[7.0, 7.9, 8.0, 8.1, 9.0, 16.0]);
            1.0 + random.sign() * eighths * two_to(-48)
        }
    };
    for number in numbers {
        *number *= factor;
    }
}

/// Puts a number on either side of a limit of one of the tests 1 and 5 to 9; the
/// plan may come out right.
fn fault(random: &mut Random, draft: &mut Draft, number: u8) {
    let count = draft.bodies.len();
    let joints = draft.joints.len();
    match number {
        1 => {
            draft.dt = random.pick(&[
                0.0,
                -0.0,
                -1.0e-3,
                f64::INFINITY,
                f64::NEG_INFINITY,
                f64::NAN,
                f64::from_bits(1),
                f64::MIN_POSITIVE,
                -f64::from_bits(1),
                f64::MAX,
                1.0e300,
                1.0e-300,
            ]);
        }
        5 if count > 0 => {
            let (body, place) = (random.below(count), random.below(26));
            draft.bodies[body][place] = odd_double(random);
        }
        6 if count > 0 => {
            let place = random.below(count);
            let body = &mut draft.bodies[place];
            match random.below(4) {
                0 => {
                    let limit = 8_192.0_f64;
                    body[random.below(3)] = random.sign()
                        * random.pick(&[limit, limit.next_up(), limit.next_down(), 1.0e5]);
                }
                1 => {
                    let limit = 64.0_f64;
                    body[14 + random.below(3)] = random.sign()
                        * random.pick(&[limit, limit.next_up(), limit.next_down(), 65.0]);
                }
                2 => {
                    let (least, most) = (1.0_f64 / 1_024.0, 1_048_576.0_f64);
                    body[13] = random.pick(&[
                        least,
                        least.next_down(),
                        most,
                        most.next_up(),
                        0.0,
                        -0.0,
                        -1.0,
                        f64::MIN_POSITIVE,
                        f64::MAX,
                    ]);
                }
                _ => scale_rotation(random, &mut body[3..7]),
            }
        }
        7 if count > 0 => {
            let place = random.below(count);
            let body = &mut draft.bodies[place];
            let scale = body[17..26]
                .iter()
                .fold(0.0_f64, |most, number| most.max(number.abs()));
            match random.below(9) {
                0 => body[17..26].fill(0.0),
                1 => {
                    let steps = random.pick(&[30.0, 31.0, 32.0, 33.0, 40.0]);
                    let place = random.pick(&[18, 19, 20, 22, 23, 24]);
                    body[place] += random.sign() * steps * f64::EPSILON * scale;
                }
                2 => {
                    // Of rank one, or nearly.
                    let v = random.direction();
                    let more = random.pick(&[0.0, 1.0e-17, 1.0e-16, 3.0e-16, 1.0e-15]);
                    let columns = [v * v.x, v * v.y, v * v.z];
                    for (index, column) in columns.iter().enumerate() {
                        put_vector(&mut body[17 + 3 * index..], *column);
                        body[17 + 4 * index] += more;
                    }
                }
                3 => body[17 + 4 * random.below(3)] *= -1.0,
                4 => body[17 + 4 * random.below(3)] = 0.0,
                5 => {
                    let factor = random.power(-1_070, -980);
                    for number in &mut body[17..26] {
                        *number *= factor;
                    }
                }
                6 => {
                    let factor = random.power(980, 1_023);
                    for number in &mut body[17..26] {
                        *number *= factor;
                    }
                }
                7 => {
                    let off = scale * random.pick(&[0.5, 1.0, 1.5]);
                    body[18] = off;
                    body[20] = off;
                }
                _ => {
                    // Positive definite by one unit in the last place, or not at all.
                    let off = random.pick(&[1.0, 1.0_f64.next_down(), 1.0_f64.next_up()]);
                    let numbers = [1.0, off, 0.0, off, 1.0, 0.0, 0.0, 0.0, 1.0];
                    body[17..26].copy_from_slice(&numbers);
                }
            }
        }
        8 if joints > 0 => {
            let place = random.below(joints);
            let joint = &mut draft.joints[place];
            let other = joint.a;
            let wrong = random.pick(&[count as u8, 255, other, count.saturating_sub(1) as u8, 16]);
            if random.coin() {
                joint.b = wrong;
            } else {
                joint.a = wrong;
            }
        }
        9 if joints > 0 => joint_fault(random, draft),
        _ => {}
    }
}

fn joint_fault(random: &mut Random, draft: &mut Draft) {
    let place = random.below(draft.joints.len());
    let joint = &mut draft.joints[place];
    let frame = 7 * random.below(2);
    let own = match joint.kind {
        DISTANCE | CONE_TWIST => random.below(2) * 3,
        _ => 0,
    };
    match random.below(3 + own) {
        0 => joint.numbers[random.below(14)] = odd_double(random),
        1 => {
            let limit = 64.0_f64;
            joint.numbers[frame + random.below(3)] =
                random.sign() * random.pick(&[limit, limit.next_up(), limit.next_down(), 100.0]);
        }
        2 => scale_rotation(random, &mut joint.numbers[frame + 3..frame + 7]),
        _ if joint.kind == DISTANCE => {
            let (least, most) = (0.125_f64, 8_192.0_f64);
            joint.numbers[14] = random.pick(&[
                least,
                least.next_down(),
                most,
                most.next_up(),
                0.0,
                -1.0,
                f64::NAN,
                f64::INFINITY,
            ]);
        }
        _ if random.coin() => {
            joint.numbers[14 + random.below(2)] = random.pick(&[
                0.0,
                -0.0,
                PI,
                PI.next_up(),
                PI.next_down(),
                -PI,
                1.0,
                f64::from_bits(1),
                f64::NAN,
                f64::INFINITY,
            ]);
        }
        _ => {
            let four = 4.0_f64;
            let (lower, upper) = random.pick(&[
                (-PI, PI),
                ((-PI).next_up(), PI),
                (-PI, PI.next_down()),
                (-four, four),
                ((-four).next_down(), four),
                (-four, four.next_up()),
                (four, four),
                (four.next_up(), four.next_up()),
                (-four, -four),
                ((-four).next_down(), (-four).next_down()),
                (0.0, -0.0),
                (f64::NAN, f64::NAN),
                (f64::INFINITY, f64::INFINITY),
                (f64::NEG_INFINITY, f64::INFINITY),
                (1.0, 2.0),
                (1.0, 1.0_f64.next_up()),
                (PI, -PI),
            ]);
            joint.numbers[16..18].copy_from_slice(&[lower, upper]);
        }
    }
}

fn range(random: &mut Random) -> Made {
    let (name, mut draft) = small_base(random);
    let number = random.pick(&[1, 5, 6, 6, 7, 7, 8, 9, 9, 9]);
    fault(random, &mut draft, number);
    ("range", name, draft)
}

/// Several faults at once: the first test over all records decides.
fn several_faults(random: &mut Random) -> Made {
    let (name, mut draft) = small_base(random);
    for _ in 0..random.within(2, 4) {
        let number = random.pick(&[1, 5, 6, 7, 8, 9]);
        fault(random, &mut draft, number);
    }
    ("several-faults", name, draft)
}

// ---------------------------------------------------------------- files

fn garbage(random: &mut Random, length: usize) -> Vec<u8> {
    (0..length).map(|_| random.bits() as u8).collect()
}

/// Damaged and unusual files.
fn reader(random: &mut Random) -> Scene {
    let (name, draft) = if random.once_in(4) {
        base(random)
    } else {
        small_base(random)
    };
    let order = random.pick(&[
        Order::Plain,
        Order::Mixed,
        Order::TimeLast,
        Order::JointsFirst,
    ]);
    let mut records = draft.records(order, random);
    let plan = match random.below(18) {
        0 => Vec::new(),
        1 => {
            let length = small(random, 1, 300);
            garbage(random, length)
        }
        2 | 3 => {
            // Cut anywhere.
            let whole = records.concat();
            whole[..random.below(whole.len())].to_vec()
        }
        4 | 5 => {
            // Cut inside a record, near its mark.
            let place = random.below(records.len());
            let keep = small(random, 1, records[place].len() - 1);
            records[place].truncate(keep);
            records.truncate(place + 1);
            records.concat()
        }
        6 | 7 => {
            // A byte or two after a good plan.
            let mut whole = records.concat();
            match random.below(6) {
                0 => whole.push(b'\n'),
                1 => whole.extend_from_slice(b"\r\n"),
                2 => whole.push(0),
                3 => whole.extend_from_slice(random.pick(&[b"DT", b"BD", b"JT", b"ST", b"HB"])),
                4 => whole.extend_from_slice(random.pick(&[b"D", b"B", b"J"])),
                _ => {
                    let length = random.within(1, 40);
                    whole.extend(garbage(random, length));
                }
            }
            whole
        }
        8 | 9 => {
            // One bit changed anywhere.
            let mut whole = records.concat();
            let place = random.below(whole.len());
            whole[place] ^= 1 << random.below(8);
            whole
        }
        10 => {
            // One bit of a mark changed, or another mark in its place.
            let place = random.below(records.len());
            if random.coin() {
                records[place][random.below(2)] ^= 1 << random.below(8);
            } else {
                let mark = random.pick(&[b"dt", b"TD", b"DB", b"BT", b"JD", b"bd", b"Jt"]);
                records[place][..2].copy_from_slice(mark);
            }
            records.concat()
        }
        11 => {
            // A second time step, whole or cut.
            let place = random.within(0, records.len());
            let mut second = time_record(random.power(-9, -3));
            if random.coin() && place == records.len() {
                second.truncate(random.within(2, 9));
            }
            records.insert(place, second);
            records.concat()
        }
        12 => {
            // No time step.
            records.retain(|record| !record.starts_with(b"DT"));
            records.concat()
        }
        13 | 14 => many_records(random, &draft),
        15 => {
            // A kind byte above 5.
            let place = random.below(records.len());
            let mut joint = vec![b'J', b'T', 0, 1, random.within(6, 255) as u8];
            if random.coin() {
                joint.extend(garbage(random, 144));
            }
            records.insert(place, joint);
            if random.coin() {
                records.truncate(place + 1);
            }
            records.concat()
        }
        16 => {
            // A record written twice.
            let place = random.below(records.len());
            records.insert(random.below(place + 1), records[place].clone());
            records.concat()
        }
        _ => {
            // Long: the first records decide.
            let mut whole = records.concat();
            let length = random.within(5_000, 100_000);
            match random.below(3) {
                0 => whole.extend(garbage(random, length)),
                1 => {
                    let again = whole.clone();
                    while whole.len() < length {
                        whole.extend_from_slice(&again);
                    }
                }
                _ => whole.resize(length, 0),
            }
            whole
        }
    };
    Scene {
        family: "reader",
        topology: name,
        plan,
    }
}

/// Sixteen or seventeen of a record, the last one whole, cut or wrong in its kind.
fn many_records(random: &mut Random, draft: &Draft) -> Vec<u8> {
    let mut out = time_record(draft.dt);
    let body = bodies(random, 1)[0];
    let pair = bodies(random, 2);
    let kind = random.pick(&KINDS);
    let joint = joint_record(&joint(random, &pair, 0, 1, kind));
    let record = if random.coin() {
        body_record(&body)
    } else {
        if random.coin() {
            for body in &pair {
                out.extend(body_record(body));
            }
        }
        joint
    };
    let count = random.pick(&[15, 16, 17, 17, 18]);
    for _ in 1..count {
        out.extend_from_slice(&record);
    }
    let mut last = record;
    match random.below(4) {
        0 => last.truncate(random.within(2, 12)),
        1 if last.starts_with(b"JT") => last[4] = random.within(6, 255) as u8,
        2 => last.truncate(random.within(1, 200).min(last.len())),
        _ => {}
    }
    out.extend(last);
    out
}
