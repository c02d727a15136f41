//! A plan being made up: its records before they are written out. Nothing is tested
//! here, so that a draft can be wrong in every way a file can.

use crate::random::Random;
use kapitsa_math::{Quat, Vec3};

pub const BALL: u8 = 0;
pub const HINGE: u8 = 1;
pub const CYLINDRICAL: u8 = 2;
pub const PLANAR: u8 = 3;
pub const DISTANCE: u8 = 4;
pub const CONE_TWIST: u8 = 5;

#[derive(Clone, Debug)]
pub struct Joint {
    pub a: u8,
    pub b: u8,
    pub kind: u8,
    /// Frame a, frame b (anchor 3, rotation 4 each), then the kind's own numbers.
    pub numbers: Vec<f64>,
}

#[derive(Clone, Debug, Default)]
pub struct Draft {
    pub dt: f64,
    pub bodies: Vec<[f64; 26]>,
    pub joints: Vec<Joint>,
}

/// The order in which a draft's records are written.
#[derive(Clone, Copy, Debug, PartialEq)]
pub enum Order {
    Plain,
    JointsFirst,
    TimeLast,
    Mixed,
}

pub fn vector(numbers: &[f64]) -> Vec3 {
    Vec3::new(numbers[0], numbers[1], numbers[2])
}

pub fn quat(numbers: &[f64]) -> Quat {
    Quat::new(numbers[0], numbers[1], numbers[2], numbers[3])
}

pub fn put_vector(numbers: &mut [f64], value: Vec3) {
    numbers[..3].copy_from_slice(&[value.x, value.y, value.z]);
}

pub fn put_quat(numbers: &mut [f64], value: Quat) {
    numbers[..4].copy_from_slice(&[value.x, value.y, value.z, value.w]);
}

pub fn time_record(dt: f64) -> Vec<u8> {
    let mut out = b"DT".to_vec();
    out.extend_from_slice(&dt.to_le_bytes());
    out
}

pub fn body_record(body: &[f64; 26]) -> Vec<u8> {
    let mut out = b"BD".to_vec();
    for number in body {
        out.extend_from_slice(&number.to_le_bytes());
    }
    out
}

pub fn joint_record(joint: &Joint) -> Vec<u8> {
    let mut out = b"JT".to_vec();
    out.extend_from_slice(&[joint.a, joint.b, joint.kind]);
    for number in &joint.numbers {
        out.extend_from_slice(&number.to_le_bytes());
    }
    out
}

impl Draft {
    /// The records in an order. Bodies among themselves and joints among themselves
    /// keep theirs.
    pub fn records(&self, order: Order, random: &mut Random) -> Vec<Vec<u8>> {
        let time = vec![time_record(self.dt)];
        let bodies: Vec<_> = self.bodies.iter().map(body_record).collect();
        let joints: Vec<_> = self.joints.iter().map(joint_record).collect();
        match order {
            Order::Plain => [time, bodies, joints].concat(),
            Order::JointsFirst => [joints, time, bodies].concat(),
            Order::TimeLast => [bodies, joints, time].concat(),
            Order::Mixed => {
                let mut queues = [time, bodies, joints].map(|records| records.into_iter());
                let mut out = Vec::new();
                loop {
                    let left: Vec<usize> =
                        (0..3).filter(|queue| queues[*queue].len() > 0).collect();
                    if left.is_empty() {
                        return out;
                    }
                    let queue = random.pick(&left);
                    out.extend(queues[queue].next());
                }
            }
        }
    }

    pub fn bytes(&self, order: Order, random: &mut Random) -> Vec<u8> {
        self.records(order, random).concat()
    }

    /// How many doubles the plan holds: time step, bodies, joints.
    pub fn number_count(&self) -> usize {
        1 + 26 * self.bodies.len()
            + self
                .joints
                .iter()
                .map(|joint| joint.numbers.len())
                .sum::<usize>()
    }

    /// The plan's double by its place in that count.
    pub fn number_mut(&mut self, place: usize) -> &mut f64 {
        if place == 0 {
            return &mut self.dt;
        }
        let mut place = place - 1;
        if place < 26 * self.bodies.len() {
            return &mut self.bodies[place / 26][place % 26];
        }
        place -= 26 * self.bodies.len();
        for joint in &mut self.joints {
            if place < joint.numbers.len() {
                return &mut joint.numbers[place];
            }
            place -= joint.numbers.len();
        }
        panic!("no such number in the plan")
    }
}
