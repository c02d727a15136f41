// ORACLE: added; the plan file (SPECIFICATION §12) and what `pose` prints.
//! Reads a plan, steps it and reports it.

use crate::step::{
    Answer, BODY_DOUBLES, JointRecord, Kind, MOST_BODIES, MOST_JOINTS, SCRATCH_DOUBLES,
    STATE_DOUBLES, Workspace, step,
};

/// A plan's records in the order met.
#[derive(Clone, Debug, Default, PartialEq)]
pub struct Plan {
    pub dt: f64,
    pub bodies: Vec<f64>,
    pub joints: Vec<JointRecord>,
}

const DOUBLE: usize = 8;
const BODY_BYTES: usize = BODY_DOUBLES * DOUBLE;
/// Body a, body b and kind, before the frames.
const JOINT_HEAD: usize = 3;
const FRAME_BYTES: usize = 7 * DOUBLE;

fn double(bytes: &[u8], index: usize) -> f64 {
    let at = index * DOUBLE;
    let mut word = [0; DOUBLE];
    word.copy_from_slice(&bytes[at..at + DOUBLE]);
    f64::from_le_bytes(word)
}

fn frame(bytes: &[u8]) -> [f64; 7] {
    std::array::from_fn(|index| double(bytes, index))
}

/// Reads a plan, or gives the number of the first refusal.
pub fn read(file: &[u8]) -> Result<Plan, u8> {
    let mut dt = None;
    let mut plan = Plan::default();
    let mut rest = file;
    while !rest.is_empty() {
        let Some((mark, after)) = rest.split_at_checked(2) else {
            return Err(13);
        };
        rest = match mark {
            b"DT" => {
                if dt.is_some() {
                    return Err(14);
                }
                let (body, after) = after.split_at_checked(DOUBLE).ok_or(17)?;
                dt = Some(double(body, 0));
                after
            }
            b"BD" => {
                if plan.bodies.len() / BODY_DOUBLES == MOST_BODIES {
                    return Err(15);
                }
                let (body, after) = after.split_at_checked(BODY_BYTES).ok_or(17)?;
                plan.bodies
                    .extend((0..BODY_DOUBLES).map(|index| double(body, index)));
                after
            }
            b"JT" => {
                if plan.joints.len() == MOST_JOINTS {
                    return Err(15);
                }
                let (head, after) = after.split_at_checked(JOINT_HEAD).ok_or(17)?;
                let own = match head[2] {
                    0..=3 => 0,
                    4 => 1,
                    5 => 4,
                    _ => return Err(16),
                };
                let (numbers, after) = after
                    .split_at_checked(2 * FRAME_BYTES + own * DOUBLE)
                    .ok_or(17)?;
                let own = |index: usize| double(numbers, 14 + index);
                plan.joints.push(JointRecord {
                    body_a: head[0],
                    body_b: head[1],
                    frame_a: frame(&numbers[..FRAME_BYTES]),
                    frame_b: frame(&numbers[FRAME_BYTES..]),
                    kind: match head[2] {
                        0 => Kind::Ball,
                        1 => Kind::Hinge,
                        2 => Kind::Cylindrical,
                        3 => Kind::Planar,
                        4 => Kind::Distance(own(0)),
                        _ => Kind::ConeTwist {
                            swing: [own(0), own(1)],
                            twist: [own(2), own(3)],
                        },
                    },
                });
                after
            }
            _ => return Err(13),
        };
    }
    plan.dt = dt.ok_or(18)?;
    Ok(plan)
}

/// What `pose` keeps from one plan to the next: room, and nothing that is read.
pub struct Room {
    scratch: Vec<f64>,
    workspace: Workspace,
}

impl Default for Room {
    fn default() -> Self {
        Self {
            scratch: vec![0.0; SCRATCH_DOUBLES],
            workspace: Workspace::default(),
        }
    }
}

/// Reads and steps a plan. The answer of a refused reading has counts 0.
pub fn pose(file: &[u8], room: &mut Room) -> (Answer, Vec<f64>) {
    match read(file) {
        Err(number) => (
            Answer {
                refusal: Some(number),
                nonlinear: 0,
                linear: 0,
            },
            Vec::new(),
        ),
        Ok(mut plan) => {
            let answer = step(
                plan.dt,
                &mut plan.bodies,
                &plan.joints,
                &mut room.scratch,
                &mut room.workspace,
            );
            (answer, plan.bodies)
        }
    }
}

/// Appends to `out` what `pose` prints.
pub fn report(answer: Answer, bodies: &[f64], out: &mut Vec<u8>) {
    let Answer {
        refusal,
        nonlinear,
        linear,
    } = answer;
    if let Some(number) = refusal {
        out.extend_from_slice(format!("NO {number} {nonlinear} {linear}\n").as_bytes());
        return;
    }
    out.extend_from_slice(format!("OK {nonlinear} {linear}\n").as_bytes());
    for (index, record) in bodies.chunks_exact(BODY_DOUBLES).enumerate() {
        out.extend_from_slice(index.to_string().as_bytes());
        for number in &record[..STATE_DOUBLES] {
            out.push(b' ');
            let bits = number.to_bits();
            for digit in (0..16).rev() {
                out.push(b"0123456789abcdef"[(bits >> (4 * digit) & 15) as usize]);
            }
        }
        out.push(b'\n');
    }
}

/// What `pose` prints for a plan.
pub fn answer_of(file: &[u8], room: &mut Room) -> Vec<u8> {
    let (answer, bodies) = pose(file, room);
    let mut out = Vec::new();
    report(answer, &bodies, &mut out);
    out
}
