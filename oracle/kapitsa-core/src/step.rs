// ORACLE: added; the step of SPECIFICATION §11 around `ConstrainedIntegrator::solve`.
//! One step of a plan: the tests 1 to 9 before `solve`, its errors as 10 and 11, and
//! test 12 after it.

use crate::{
    collision::CollisionError,
    constraint::SolverBody,
    joint::{
        BallJoint, ConeTwistJoint, CylindricalJoint, DistanceJoint, HingeJoint, Joint, JointCommon,
        JointConstraint, JointDrive, JointFrame, JointLimit, PlanarJoint,
        constrained::{ConstrainedIntegrator, ConstrainedWorkspace},
    },
    mass::MassProperties,
    rigid_body::{RigidBody, solver_mass::inverse_spd},
    transform::Transform,
    world::JointId,
};
use kapitsa_math::{Mat3, Quat, Vec3};
use std::f64::consts::PI;

/// Doubles of a body record: origin 3, rotation 4 (x, y, z, w), linear velocity 3,
/// angular velocity 3, mass, local centre 3, inertia 9 by columns.
pub const BODY_DOUBLES: usize = 26;
/// Doubles of a body record that a step may change.
pub const STATE_DOUBLES: usize = 13;
pub const MOST_BODIES: usize = 16;
pub const MOST_JOINTS: usize = 16;
/// Doubles of scratch that a step asks for.
pub const SCRATCH_DOUBLES: usize = 6_144;

const LARGEST_COORDINATE: f64 = 8_192.0;
const LARGEST_LOCAL: f64 = 64.0;
const SMALLEST_MASS: f64 = 1.0 / 1_024.0;
const LARGEST_MASS: f64 = 1_048_576.0;
const SMALLEST_DISTANCE: f64 = 0.125;
const LARGEST_DISTANCE: f64 = 8_192.0;
const LARGEST_TWIST: f64 = 4.0;

/// A joint's kind with its own numbers, as a plan holds it.
#[derive(Clone, Copy, Debug, PartialEq)]
pub enum Kind {
    Ball,
    Hinge,
    Cylindrical,
    Planar,
    Distance(f64),
    ConeTwist { swing: [f64; 2], twist: [f64; 2] },
}

/// A joint as a plan holds it; a frame is anchor 3, then rotation 4.
#[derive(Clone, Copy, Debug, PartialEq)]
pub struct JointRecord {
    pub body_a: u8,
    pub body_b: u8,
    pub frame_a: [f64; 7],
    pub frame_b: [f64; 7],
    pub kind: Kind,
}

/// A step's answer: no number where it is accepted, and both pass counts.
#[derive(Clone, Copy, Debug, PartialEq, Eq)]
pub struct Answer {
    pub refusal: Option<u8>,
    pub nonlinear: usize,
    pub linear: usize,
}

/// The vectors that `solve` grows, kept from one step to the next.
#[derive(Default)]
pub struct Workspace(ConstrainedWorkspace);

/// The step of SPECIFICATION §11. `scratch` takes part in test 4 only and is then zeroed;
/// the doubles that Rattle keeps there are vectors of the workspace here.
pub fn step(
    dt: f64,
    bodies: &mut [f64],
    joints: &[JointRecord],
    scratch: &mut [f64],
    workspace: &mut Workspace,
) -> Answer {
    match tests_before(dt, bodies, joints, scratch.len()) {
        Some(number) => Answer {
            refusal: Some(number),
            nonlinear: 0,
            linear: 0,
        },
        None => {
            scratch[..SCRATCH_DOUBLES].fill(0.0);
            run(dt, bodies, joints, workspace)
        }
    }
}

/// Tests 1 to 9, each over all bodies or joints before the next.
pub fn tests_before(dt: f64, bodies: &[f64], joints: &[JointRecord], scratch: usize) -> Option<u8> {
    if !dt.is_finite() || dt <= 0.0 {
        return Some(1);
    }
    if !bodies.len().is_multiple_of(BODY_DOUBLES) || bodies.len() / BODY_DOUBLES > MOST_BODIES {
        return Some(2);
    }
    if joints.len() > MOST_JOINTS {
        return Some(3);
    }
    if scratch < SCRATCH_DOUBLES {
        return Some(4);
    }
    if bodies.iter().any(|number| !number.is_finite()) {
        return Some(5);
    }
    let records = || bodies.chunks_exact(BODY_DOUBLES);
    if records().any(out_of_range) {
        return Some(6);
    }
    if records().any(|record| inverse_spd(inertia(record)).is_err()) {
        return Some(7);
    }
    let count = bodies.len() / BODY_DOUBLES;
    let absent = |body: u8| usize::from(body) >= count;
    if joints
        .iter()
        .any(|joint| absent(joint.body_a) || absent(joint.body_b) || joint.body_a == joint.body_b)
    {
        return Some(8);
    }
    if joints.iter().any(shut_out) {
        return Some(9);
    }
    None
}

fn above(numbers: &[f64], limit: f64) -> bool {
    numbers.iter().any(|number| number.abs() > limit)
}

fn vector(numbers: &[f64]) -> Vec3 {
    Vec3::new(numbers[0], numbers[1], numbers[2])
}

fn rotation(numbers: &[f64]) -> Quat {
    Quat::new(numbers[0], numbers[1], numbers[2], numbers[3])
}

fn inertia(record: &[f64]) -> Mat3 {
    Mat3::from_cols(
        vector(&record[17..20]),
        vector(&record[20..23]),
        vector(&record[23..26]),
    )
}

/// Test 6 for one body.
fn out_of_range(record: &[f64]) -> bool {
    above(&record[0..3], LARGEST_COORDINATE)
        || above(&record[14..17], LARGEST_LOCAL)
        || !(SMALLEST_MASS..=LARGEST_MASS).contains(&record[13])
        || !rotation(&record[3..7]).is_normalized()
}

/// Test 9 for one joint.
fn shut_out(joint: &JointRecord) -> bool {
    let frame_fails = |frame: &[f64; 7]| {
        frame.iter().any(|number| !number.is_finite())
            || above(&frame[0..3], LARGEST_LOCAL)
            || !rotation(&frame[3..7]).is_normalized()
    };
    frame_fails(&joint.frame_a)
        || frame_fails(&joint.frame_b)
        || match joint.kind {
            Kind::Ball | Kind::Hinge | Kind::Cylindrical | Kind::Planar => false,
            // A range that holds no NaN and no infinity.
            Kind::Distance(length) => !(SMALLEST_DISTANCE..=LARGEST_DISTANCE).contains(&length),
            Kind::ConeTwist {
                swing,
                twist: [lower, upper],
            } => {
                swing.iter().any(|angle| *angle != 0.0 && *angle != PI)
                    || !lower.is_finite()
                    || !upper.is_finite()
                    || above(&[lower, upper], LARGEST_TWIST)
                    || !(lower == upper || (lower <= -PI && upper >= PI))
            }
        }
}

/// The Rust's joint for a record that passed test 9.
fn constraint(index: usize, record: &JointRecord) -> JointConstraint {
    let frame =
        |numbers: &[f64; 7]| JointFrame::new(vector(&numbers[0..3]), rotation(&numbers[3..7]));
    let common = JointCommon::new(frame(&record.frame_a), frame(&record.frame_b));
    let drive = JointDrive::DISABLED;
    let joint = match record.kind {
        Kind::Ball => Joint::Ball(BallJoint {
            common,
            swing_limit: None,
            twist_limit: None,
        }),
        Kind::Hinge => Joint::Hinge(HingeJoint {
            common,
            angle_limit: None,
            drive,
        }),
        Kind::Cylindrical => Joint::Cylindrical(CylindricalJoint {
            common,
            translation_limit: None,
            angle_limit: None,
            translation_drive: drive,
            angular_drive: drive,
        }),
        Kind::Planar => Joint::Planar(PlanarJoint {
            common,
            translation_limits: [None; 2],
            rotation_limit: None,
            translation_drives: [drive; 2],
            rotation_drive: drive,
        }),
        Kind::Distance(length) => Joint::Distance(DistanceJoint {
            common,
            distance_limit: JointLimit::new(length, length),
        }),
        Kind::ConeTwist {
            swing,
            twist: [lower, upper],
        } => Joint::ConeTwist(ConeTwistJoint {
            common,
            swing_limit: swing,
            twist_limit: JointLimit::new(lower, upper),
        }),
    };
    JointConstraint {
        id: JointId(index),
        body_a: usize::from(record.body_a),
        body_b: usize::from(record.body_b),
        joint,
    }
}

/// The Rust's body for a record that passed tests 5 to 7. The constructors' own
/// tests are weaker than those.
fn rigid_body(record: &[f64]) -> RigidBody {
    let transform = Transform::new(vector(&record[0..3]), rotation(&record[3..7]))
        .expect("test 6 is the transform's test");
    let mass = MassProperties::from_record(record[13], vector(&record[14..17]), inertia(record));
    let mut body = RigidBody::new_dynamic(transform, mass).expect("the world centre is finite");
    body.set_linear_velocity(vector(&record[7..10]))
        .expect("finite by test 5");
    body.set_angular_velocity(vector(&record[10..13]))
        .expect("finite by test 5");
    body
}

fn state_numbers(body: &RigidBody) -> [f64; STATE_DOUBLES] {
    let state = body.state();
    let (origin, rotation) = (
        state.transform().translation(),
        state.transform().rotation(),
    );
    let (linear, angular) = (state.linear_velocity(), state.angular_velocity());
    [
        origin.x, origin.y, origin.z, rotation.x, rotation.y, rotation.z, rotation.w, linear.x,
        linear.y, linear.z, angular.x, angular.y, angular.z,
    ]
}

/// `solve` on bodies and joints that passed tests 1 to 9, then test 12.
pub fn run(
    dt: f64,
    bodies: &mut [f64],
    joints: &[JointRecord],
    workspace: &mut Workspace,
) -> Answer {
    let mut staged: Vec<SolverBody> = bodies
        .chunks_exact(BODY_DOUBLES)
        .map(|record| SolverBody {
            body: rigid_body(record),
        })
        .collect();
    let constraints: Vec<JointConstraint> = joints
        .iter()
        .enumerate()
        .map(|(index, record)| constraint(index, record))
        .collect();
    let scratch = &mut workspace.0;
    let result = ConstrainedIntegrator::solve(&mut staged, &constraints, dt, scratch);
    let refused = match result {
        Ok(()) => None,
        Err(CollisionError::NonConvergent) => Some(10),
        Err(CollisionError::ArithmeticOverflow) => Some(11),
        Err(other) => unreachable!("tests 1 to 9 leave no such error: {other}"),
    };
    let states: Vec<[f64; STATE_DOUBLES]> = staged
        .iter()
        .map(|body| state_numbers(body.body()))
        .collect();
    let refusal = refused.or_else(|| {
        states
            .iter()
            .any(|state| above(&state[0..3], LARGEST_COORDINATE))
            .then_some(12)
    });
    if refusal.is_none() {
        for (record, state) in bodies.chunks_exact_mut(BODY_DOUBLES).zip(&states) {
            record[..STATE_DOUBLES].copy_from_slice(state);
        }
    }
    Answer {
        refusal,
        nonlinear: scratch.nonlinear_iterations,
        linear: scratch.linear_iterations,
    }
}

#[cfg(test)]
mod tests {
    use super::*;

    fn body() -> [f64; BODY_DOUBLES] {
        let mut record = [0.0; BODY_DOUBLES];
        record[6] = 1.0;
        record[7] = 1.0;
        record[13] = 2.0;
        for place in [17, 21, 25] {
            record[place] = 1.0;
        }
        record
    }

    fn joint() -> JointRecord {
        let frame = [0.0, 0.0, 0.0, 0.0, 0.0, 0.0, 1.0];
        JointRecord {
            body_a: 0,
            body_b: 1,
            frame_a: frame,
            frame_b: frame,
            kind: Kind::Ball,
        }
    }

    fn answer(dt: f64, bodies: &mut [f64], joints: &[JointRecord], scratch: &mut [f64]) -> Answer {
        step(dt, bodies, joints, scratch, &mut Workspace::default())
    }

    // 2, 3 and 4 cannot come from a plan file, so they are tried here, each against
    // all later ones.
    #[test]
    fn counts_and_scratch() {
        let joints = vec![joint(); 17];
        let mut short = vec![7.0; SCRATCH_DOUBLES - 1];
        let mut seventeen = body().repeat(17);
        let refused = |answer: Answer| (answer.refusal, answer.nonlinear, answer.linear);
        let all = refused(answer(0.0, &mut seventeen, &joints, &mut short));
        assert_eq!(all, (Some(1), 0, 0));
        let many = refused(answer(1.0, &mut seventeen, &joints, &mut short));
        assert_eq!(many, (Some(2), 0, 0));
        let uneven = refused(answer(1.0, &mut seventeen[..27], &joints, &mut short));
        assert_eq!(uneven, (Some(2), 0, 0));
        let joined = refused(answer(1.0, &mut seventeen[..416], &joints, &mut short));
        assert_eq!(joined, (Some(3), 0, 0));
        let sixteen = refused(answer(
            1.0,
            &mut seventeen[..416],
            &joints[..16],
            &mut short,
        ));
        assert_eq!(sixteen, (Some(4), 0, 0));
        assert!(short.iter().all(|number| *number == 7.0));
    }

    #[test]
    fn scratch_is_zeroed_and_no_more() {
        let mut bodies = body();
        let mut scratch = vec![7.0; SCRATCH_DOUBLES + 3];
        let moved = answer(1.0, &mut bodies, &[], &mut scratch);
        assert_eq!((moved.refusal, moved.nonlinear, moved.linear), (None, 1, 0));
        assert!(scratch[..SCRATCH_DOUBLES].iter().all(|x| x.to_bits() == 0));
        assert_eq!(scratch[SCRATCH_DOUBLES..], [7.0; 3]);
        assert_eq!(bodies[0..3], [1.0, 0.0, 0.0]);
        assert_eq!(bodies[7..10], [1.0, 0.0, 0.0]);
    }

    #[test]
    fn sixteen_joints_pass() {
        let mut bodies = body().repeat(2);
        let mut scratch = vec![0.0; SCRATCH_DOUBLES];
        let joints = vec![joint(); 16];
        assert_eq!(
            answer(1.0, &mut bodies, &joints, &mut scratch).refusal,
            None
        );
    }

    #[test]
    fn refused_bodies_stay() {
        let mut bodies = body();
        bodies[0] = 8_192.0;
        let before = bodies;
        let mut scratch = vec![0.0; SCRATCH_DOUBLES];
        let over = answer(1.0, &mut bodies, &[], &mut scratch);
        assert_eq!(
            (over.refusal, over.nonlinear, over.linear),
            (Some(12), 1, 0)
        );
        assert_eq!(bodies, before);
    }
}
