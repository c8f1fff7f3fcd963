//! The comparison finds planted mistakes and shows them by small cases.

use check::augmenting::Fast;
use check::circuit::{Circuit, Making};
use check::compare::case::Difference;
use check::compare::own::Own;
use check::compare::product::{LevelReply, Product, Reply};
use check::compare::summary::Summary;
use check::compare::{compare, Amount};
use check::exhaustive::smallest_plans;
use check::format::{Reading, Rooms};
use check::levels::{Levels, Scheme};
use check::planner::{Method, Outcome};
use check::planning::{Answer, Call, State};
use check::routes::barred_route;

const AMOUNT: Amount =
    Amount { seed: 7, texts: 400, level_runs: 400, small_runs: 300, middle_runs: 100, large_runs: 5 };

/// This program with a mistake planted in what it gives back.
struct Wrong<M> {
    own: Own<M>,
    reading: fn(&mut Reading),
    text: fn(&mut Vec<u8>),
    levels: fn(&mut LevelReply),
    reply: fn(&Circuit, &mut Reply),
}

impl<M> Wrong<M> {
    fn new(method: M) -> Self {
        Wrong { own: Own(method), reading: |_| (), text: |_| (), levels: |_| (), reply: |_, _| () }
    }
}

impl<M: Method> Product for Wrong<M> {
    fn read(&mut self, text: &[u8], rooms: Rooms) -> Reading {
        let mut reading = self.own.read(text, rooms);
        (self.reading)(&mut reading);
        reading
    }

    fn write(&mut self, circuit: &Circuit) -> Vec<u8> {
        let mut text = self.own.write(circuit);
        (self.text)(&mut text);
        text
    }

    fn level_run(&mut self, circuit: &Circuit, plan: &[u32], scheme: Scheme, room: usize) -> LevelReply {
        let mut reply = self.own.level_run(circuit, plan, scheme, room);
        (self.levels)(&mut reply);
        reply
    }

    fn run(&mut self, circuit: &Circuit, calls: &[Call]) -> Vec<Reply> {
        let mut replies = self.own.run(circuit, calls);
        replies.iter_mut().for_each(|reply| (self.reply)(circuit, reply));
        replies
    }
}

fn difference(mut product: impl Product) -> Difference {
    let mut summary = Summary::default();
    compare(&mut product, &AMOUNT, &mut summary).expect_err("a planted mistake is found")
}

fn assert_found(product: impl Product, kind: &str, most_lines: usize) {
    let difference = difference(product);
    assert!(difference.kind.starts_with(kind), "{difference}");
    assert!(difference.case.trim().lines().count() <= most_lines, "{difference}");
}

#[test]
fn copies_read_as_inversions() {
    let mut product = Wrong::new(Fast);
    product.reading = |reading| {
        if let Ok(circuit) = &mut reading.outcome {
            for making in &mut circuit.makings {
                if let Making::Copy(a) = *making {
                    *making = Making::Inversion(a);
                }
            }
        }
    };
    let difference = difference(product);
    assert!(difference.case.len() < 120, "{difference}");
}

#[test]
fn a_fault_one_byte_off() {
    let mut product = Wrong::new(Fast);
    product.reading = |reading| {
        if let Err(fault) = &mut reading.outcome {
            fault.byte += u32::from(fault.number == 8);
        }
    };
    let difference = difference(product);
    assert!(difference.kind == "damaged texts" && difference.case.len() < 150, "{difference}");
}

#[test]
fn no_outputs_written_as_a_value() {
    let mut product = Wrong::new(Fast);
    product.text = |text| {
        let lines = String::from_utf8_lossy(text).replacen("\n0\n", "\n1 0\n", 1);
        *text = lines.into_bytes();
    };
    assert_found(product, "written circuits", 6);
}

#[test]
fn an_overrun_one_level_high() {
    let mut product = Wrong::new(Fast);
    product.levels = |reply| {
        if let Ok(Levels::Overrun { level, .. }) = &mut reply.answer {
            *level += u32::from(*level == 3);
        }
    };
    assert_found(product, "level runs", 9);
}

#[test]
fn a_write_past_what_is_answered() {
    let mut product = Wrong::new(Fast);
    product.reply = |_, reply| reply.rest_untouched = !matches!(&reply.answer, Answer::Plan(plan) if plan.len() > 1);
    assert_found(product, "runs of calls", 16);
}

#[test]
fn refusals_that_change_places() {
    let mut product = Wrong::new(Fast);
    product.reply = |_, reply| {
        if reply.answer == Answer::Refused(19) {
            reply.answer = Answer::Refused(18);
        }
    };
    assert_found(product, "runs of calls", 14);
}

#[test]
fn routes_counted_while_blocked() {
    let mut product = Wrong::new(Fast);
    product.reply = |_, reply| {
        if let Some(standing) = reply.standing.as_mut().filter(|standing| standing.state == State::Blocked) {
            standing.routes = 1;
        }
    };
    assert_found(product, "runs of calls", 12);
}

#[test]
fn routes_that_start_late() {
    let mut product = Wrong::new(Fast);
    product.reply = |_, reply| {
        if let Answer::Route(row) = &mut reply.answer {
            if row.len() > 1 {
                row.remove(0);
            }
        }
    };
    assert_found(product, "runs of calls", 14);
}

/// Closes one route early.
struct Early;

impl Method for Early {
    fn outcome(&self, circuit: &Circuit, bars: &[bool]) -> Outcome {
        match Fast.outcome(circuit, bars) {
            Outcome::Planned { mut plan, mut routes } if plan.len() > 1 => {
                plan.pop();
                routes.pop();
                Outcome::Planned { plan, routes }
            }
            outcome => outcome,
        }
    }
}

/// Takes the last of the smallest plans that was found.
struct Late;

impl Method for Late {
    fn outcome(&self, circuit: &Circuit, bars: &[bool]) -> Outcome {
        match Fast.outcome(circuit, bars) {
            Outcome::Planned { plan, routes } if circuit.wires() < 16 => {
                let plan = smallest_plans(circuit, bars).pop().unwrap_or(plan);
                Outcome::Planned { plan, routes }
            }
            outcome => outcome,
        }
    }
}

/// Gives the first route for every index.
struct Shared;

impl Method for Shared {
    fn outcome(&self, circuit: &Circuit, bars: &[bool]) -> Outcome {
        match Fast.outcome(circuit, bars) {
            Outcome::Planned { plan, routes } if routes.len() > 1 => {
                let routes = vec![routes[0].clone(); plan.len()];
                Outcome::Planned { plan, routes }
            }
            outcome => outcome,
        }
    }
}

/// Stops when no route can be added with the others left in place.
struct Greedy;

impl Method for Greedy {
    fn outcome(&self, circuit: &Circuit, bars: &[bool]) -> Outcome {
        let Outcome::Planned { mut plan, .. } = Fast.outcome(circuit, bars) else {
            return Fast.outcome(circuit, bars);
        };
        let mut free = vec![true; circuit.wires()];
        let mut routes = Vec::new();
        while let Some(route) = barred_route(circuit, &free) {
            for &rank in route.iter().filter(|&&rank| !bars[rank as usize]) {
                free[rank as usize] = false;
            }
            routes.push(route);
        }
        plan.truncate(routes.len());
        Outcome::Planned { plan, routes }
    }
}

#[test]
fn plans_that_close_early_come_late_or_share() {
    assert_found(Wrong::new(Early), "runs of calls", 16);
    assert_found(Wrong::new(Greedy), "runs of calls", 20);
    assert_found(Wrong::new(Late), "runs of calls", 16);
    assert_found(Wrong::new(Shared), "runs of calls", 18);
}

#[test]
fn methods_agree() {
    let mut summary = Summary::default();
    if let Err(difference) = compare(&mut Own(Fast), &AMOUNT, &mut summary) {
        panic!("{difference}");
    }
}
