//! This program itself as a product, so that the comparison can be tried by itself.

use super::product::{LevelReply, Product, Reply, FILL};
use crate::circuit::Circuit;
use crate::format::{read, write, Reading, Rooms};
use crate::generate::matching;
use crate::levels::{self, Scheme};
use crate::planner::Method;
use crate::planning::{Call, Planning};
use crate::report;

/// This program, planning by the method given.
#[derive(Clone, Copy, Debug, Default)]
pub struct Own<M>(pub M);

impl<M: Method> Product for Own<M> {
    fn read(&mut self, text: &[u8], rooms: Rooms) -> Reading {
        read(text, rooms)
    }

    fn write(&mut self, circuit: &Circuit) -> Vec<u8> {
        write(circuit)
    }

    fn level_run(&mut self, circuit: &Circuit, plan: &[u32], scheme: Scheme, room: usize) -> LevelReply {
        let mut room = vec![FILL; room];
        let answer = levels::run(circuit, plan, scheme, &mut room).map_err(|refusal| refusal.number());
        LevelReply { answer, room }
    }

    fn run(&mut self, circuit: &Circuit, calls: &[Call]) -> Vec<Reply> {
        let mut planning = Planning::new(circuit, &self.0);
        calls
            .iter()
            .map(|&call| {
                let answer = planning.call(call);
                Reply { answer, rest_untouched: true, standing: Some(planning.standing()) }
            })
            .collect()
    }

    fn print(&mut self, limit: usize, text: &[u8]) -> Option<Vec<u8>> {
        Some(report::printed(limit, text).into_bytes())
    }

    fn matching(&mut self, width: u32) -> Option<Result<Circuit, u8>> {
        Some(matching::worked_out(width))
    }
}
