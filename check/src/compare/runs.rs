//! Cases of runs: lists of calls on one planning, judged call by call.

use super::case::{same, Case, Kinds, Mismatch};
use super::level_runs::moved;
use super::product::{Product, Reply};
use super::shrink::{parts, smaller_circuits, without};
use super::texts::shown_circuit;
use crate::circuit::Circuit;
use crate::exhaustive::Exhaustive;
use crate::planner::{MaximumFlow, Method, Outcome};
use crate::planning::{Answer, Call, Planning, State};
use crate::random::{calls, circuits};
use crate::rng::Rng;
use crate::routes::is_route;
use std::collections::HashMap;
use std::fmt::{self, Display};

/// Circuits with at most so many produced wires are planned by trying all sets.
const MOST_TRIED: usize = 11;

/// The most wires of circuits of two sizes.
pub const MIDDLE_WIRES: u32 = 60;
pub const LARGE_WIRES: u32 = 400;

/// A circuit and the calls on one planning of it.
#[derive(Clone)]
pub struct RunCase {
    pub circuit: Circuit,
    pub calls: Vec<Call>,
}

/// A run on a circuit small enough to try all sets of wires.
pub fn small(rng: &mut Rng) -> RunCase {
    let circuit = circuits::small(rng);
    let calls = calls::calls(rng, &circuit, 40);
    RunCase { circuit, calls }
}

/// A run on a circuit of at most so many wires.
pub fn up_to(rng: &mut Rng, wires: u32) -> RunCase {
    let circuit = circuits::up_to(rng, wires);
    let calls = calls::calls(rng, &circuit, 60);
    RunCase { circuit, calls }
}

/// The method that judges: trying all sets where that is quick, else a general maximum flow.
struct Judging;

impl Method for Judging {
    fn outcome(&self, circuit: &Circuit, bars: &[bool]) -> Outcome {
        let produced = circuit.makings.iter().filter(|making| making.is_produced()).count();
        if produced <= MOST_TRIED {
            Exhaustive.outcome(circuit, bars)
        } else {
            MaximumFlow.outcome(circuit, bars)
        }
    }
}

/// Follows a run and says what each reply must be.
struct Judge<'c> {
    circuit: &'c Circuit,
    goals: Vec<bool>,
    planning: Planning<'c, Judging>,
    /// The routes given since the bars last changed, and by whom each unbarred wire is used.
    routes: HashMap<u32, Vec<u32>>,
    users: HashMap<u32, u32>,
}

impl<'c> Judge<'c> {
    fn new(circuit: &'c Circuit) -> Self {
        let planning = Planning::new(circuit, &Judging);
        Judge { circuit, goals: circuit.goals(), planning, routes: HashMap::new(), users: HashMap::new() }
    }

    fn judge(&mut self, call: Call, reply: &Reply) -> Result<(), Mismatch> {
        let expected = self.planning.call(call);
        if expected == Answer::Done {
            self.routes.clear();
            self.users.clear();
        }
        match (call, &expected, &reply.answer) {
            (Call::Route { index, .. }, Answer::Route(_), Answer::Route(row)) => self.judge_route(index, row)?,
            _ if expected == reply.answer => {}
            _ => return Err(Mismatch::new((call, expected), &reply.answer)),
        }
        if !reply.rest_untouched {
            return Err(Mismatch::new((call, "the rest of the room as before"), "the rest altered"));
        }
        match reply.standing {
            Some(standing) => same(&self.planning.standing(), &standing),
            None => Ok(()),
        }
    }

    /// Routes are free but for these: what a route is, which wires it has, and that it stays.
    fn judge_route(&mut self, index: u32, row: &[u32]) -> Result<(), Mismatch> {
        let wrong =
            |expected: &str| Err(Mismatch::new((Call::Route { index, room: self.circuit.wires() }, expected), row));
        let barred = |rank: u32| self.planning.bars()[rank as usize];
        if !is_route(self.circuit, &self.goals, row) {
            return wrong("a route");
        }
        if self.planning.standing().state == State::Blocked && !row.iter().all(|&rank| barred(rank)) {
            return wrong("a route of barred wires");
        }
        if self.routes.get(&index).is_some_and(|before| before != row) {
            return wrong("the same route as before");
        }
        for &rank in row.iter().filter(|&&rank| !barred(rank)) {
            if *self.users.entry(rank).or_insert(index) != index {
                return wrong("a route that shares no unbarred wire with another");
            }
        }
        self.routes.insert(index, row.to_vec());
        Ok(())
    }
}

/// What kind of answer this is, for the summary.
fn kind(answer: &Answer) -> String {
    match answer {
        Answer::Done => "done".to_string(),
        Answer::Grown => "grown".to_string(),
        Answer::Closed => "closed".to_string(),
        Answer::Blocked => "blocked".to_string(),
        Answer::Plan(_) => "plan".to_string(),
        Answer::Route(_) => "route".to_string(),
        Answer::Refused(number) => format!("refused {number}"),
    }
}

impl Case for RunCase {
    fn judge<P: Product>(&self, product: &mut P) -> Result<Kinds, Mismatch> {
        let replies = product.run(&self.circuit, &self.calls);
        if replies.len() != self.calls.len() {
            return Err(Mismatch::new(format!("{} replies", self.calls.len()), format!("{} replies", replies.len())));
        }
        let mut judge = Judge::new(&self.circuit);
        for (&call, reply) in self.calls.iter().zip(&replies) {
            judge.judge(call, reply)?;
        }
        Ok(replies.iter().map(|reply| kind(&reply.answer)).collect())
    }

    fn smaller(&self) -> Box<dyn Iterator<Item = Self> + '_> {
        let fewer = parts(self.calls.len())
            .map(|part| RunCase { circuit: self.circuit.clone(), calls: without(&self.calls, part) });
        let circuits = smaller_circuits(&self.circuit).map(|smaller| RunCase {
            calls: self.calls.iter().filter_map(|&call| moved_call(call, &smaller.ranks)).collect(),
            circuit: smaller.circuit,
        });
        Box::new(fewer.chain(circuits))
    }
}

/// The call on a smaller circuit, unless it is about a wire left out.
fn moved_call(call: Call, ranks: &[Option<u32>]) -> Option<Call> {
    match call {
        Call::Bar(rank) => moved(ranks, rank).map(Call::Bar),
        Call::Unbar(rank) => moved(ranks, rank).map(Call::Unbar),
        other => Some(other),
    }
}

impl Display for RunCase {
    fn fmt(&self, out: &mut fmt::Formatter) -> fmt::Result {
        writeln!(out, "{}", shown_circuit(&self.circuit))?;
        let mut calls = &self.calls[..];
        while let Some(&call) = calls.first() {
            let times = calls.iter().take_while(|&&other| other == call).count();
            match times {
                1 => writeln!(out, "{call:?}")?,
                _ => writeln!(out, "{call:?} {times} times")?,
            }
            calls = &calls[times..];
        }
        Ok(())
    }
}
