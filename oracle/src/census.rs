//! Counts of what a run of plans was: answers, kinds, linear solves, topologies.

use kapitsa_core::plan::read;
use kapitsa_core::step::{Answer, JointRecord, Kind};
use std::collections::BTreeMap;
use std::fmt;

/// The linear solve that a step begins, from joints and bodies alone.
#[derive(Clone, Copy, Debug, PartialEq, Eq, PartialOrd, Ord)]
pub enum Solve {
    LeastSquares,
    Path,
    Gradients,
}

pub fn solve_of(bodies: usize, joints: &[JointRecord]) -> Solve {
    if joints.len() >= bodies {
        return Solve::LeastSquares;
    }
    // Every joint has a row, so blocks of rows are blocks of joints.
    let mut blocks: Vec<(u8, u8)> = joints.iter().map(|j| (j.body_a, j.body_b)).collect();
    blocks.dedup();
    let mut uses = vec![0; bodies];
    let mut root: Vec<usize> = (0..bodies).collect();
    let find = |root: &[usize], mut body: usize| {
        while root[body] != body {
            body = root[body];
        }
        body
    };
    for (a, b) in blocks {
        for body in [a, b] {
            uses[usize::from(body)] += 1;
            if uses[usize::from(body)] > 2 {
                return Solve::Gradients;
            }
        }
        let (a, b) = (find(&root, usize::from(a)), find(&root, usize::from(b)));
        if a == b {
            return Solve::Gradients;
        }
        root[a] = b;
    }
    Solve::Path
}

pub fn kind_name(kind: &Kind) -> &'static str {
    match kind {
        Kind::Ball => "Ball",
        Kind::Hinge => "Hinge",
        Kind::Cylindrical => "Cylindrical",
        Kind::Planar => "Planar",
        Kind::Distance(_) => "Distance",
        Kind::ConeTwist { swing, twist } => {
            match (swing[0] == 0.0, swing[1] == 0.0, twist[0] == twist[1]) {
                (false, false, false) => "ConeTwist, nothing locked",
                (true, false, false) => "ConeTwist, swing x locked",
                (false, true, false) => "ConeTwist, swing y locked",
                (true, true, false) => "ConeTwist, swings locked",
                (false, false, true) => "ConeTwist, twist locked",
                (true, false, true) => "ConeTwist, swing x and twist locked",
                (false, true, true) => "ConeTwist, swing y and twist locked",
                (true, true, true) => "ConeTwist, all locked",
            }
        }
    }
}

pub fn answer_name(answer: Answer) -> String {
    match answer.refusal {
        None => "OK".to_string(),
        Some(number) => format!("NO {number:2}"),
    }
}

#[derive(Default)]
pub struct Census {
    plans: usize,
    accepted: usize,
    moved: usize,
    bytes: usize,
    tables: BTreeMap<&'static str, BTreeMap<String, (usize, usize)>>,
}

impl Census {
    fn note(&mut self, table: &'static str, line: String, accepted: bool) {
        let count = self
            .tables
            .entry(table)
            .or_default()
            .entry(line)
            .or_default();
        count.0 += 1;
        count.1 += usize::from(accepted);
    }

    pub fn add(&mut self, family: &str, topology: &str, plan: &[u8], answer: Answer) {
        let accepted = answer.refusal.is_none();
        self.plans += 1;
        self.accepted += usize::from(accepted);
        self.moved += usize::from(accepted && answer.linear > 0);
        self.bytes += plan.len();
        self.note("answer", answer_name(answer), accepted);
        self.note("family", family.to_string(), accepted);
        let Ok(records) = read(plan) else {
            return;
        };
        self.note("topology", topology.to_string(), accepted);
        let mut kinds: Vec<&str> = records.joints.iter().map(|j| kind_name(&j.kind)).collect();
        kinds.sort_unstable();
        kinds.dedup();
        if kinds.is_empty() {
            kinds.push("(no joint)");
        }
        for kind in &kinds {
            self.note("kind", kind.to_string(), accepted);
        }
        let bodies = records.bodies.len() / 26;
        let fewer = match records.joints.len().cmp(&bodies) {
            std::cmp::Ordering::Less => "fewer",
            std::cmp::Ordering::Equal => "equal",
            std::cmp::Ordering::Greater => "more",
        };
        self.note("joints than bodies", fewer.to_string(), accepted);
        if answer.linear > 0 {
            let solve = solve_of(bodies, &records.joints);
            self.note("linear solve with passes", format!("{solve:?}"), accepted);
        }
        if answer.nonlinear > 0 {
            let passes = match answer.nonlinear {
                1 => "1",
                2..=4 => "2 to 4",
                5..=8 => "5 to 8",
                9..=16 => "9 to 16",
                17..=31 => "17 to 31",
                _ => "32",
            };
            self.note("nonlinear passes", passes.to_string(), accepted);
        }
    }
}

impl fmt::Display for Census {
    fn fmt(&self, out: &mut fmt::Formatter<'_>) -> fmt::Result {
        writeln!(
            out,
            "{} plans, {} bytes; accepted {}, of them {} with linear passes",
            self.plans, self.bytes, self.accepted, self.moved
        )?;
        for (table, lines) in &self.tables {
            writeln!(out, "{table:<44}{:>8}{:>10}", "plans", "accepted")?;
            for (line, (plans, accepted)) in lines {
                writeln!(out, "  {line:<42}{plans:>8}{accepted:>10}")?;
            }
        }
        Ok(())
    }
}
