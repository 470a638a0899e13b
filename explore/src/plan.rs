//! What may be done in a search beside taking messages: lease requests, the plan's lines, and expiries where asked for. Each as often as the step lets it.

use crate::action::{self, GRANT_EXPIRED, JOIN, LEASE_EXPIRED, REQUEST_LEASE};
use crate::engine::Words;
use crate::file::{Frame, DEAD, OK, READY, WAIT};
use crate::state::{Records, State};

/// When a Join of the plan may be done.
#[derive(Clone, Copy, Debug, Default)]
pub struct Limits {
    /// Only while fewer than so many nodes are wait or ok.
    pub joining: Option<usize>,
    /// Only while fewer than so many nodes are wait.
    pub waiting: Option<usize>,
    /// Only after the joins before it.
    pub in_order: bool,
}

pub struct Plan {
    pub actions: Vec<Words>,
    pub limits: Limits,
}

impl Plan {
    /// The plan of a text: a line for each action, `#` begins a comment.
    pub fn parse(text: &str, frame: &Frame) -> Result<Plan, String> {
        let mut plan = Plan { actions: Vec::new(), limits: Limits::default() };
        for (line, number) in text.lines().zip(1..) {
            let line = line.split('#').next().unwrap_or_default().trim();
            if !line.is_empty() {
                let actions = action::parse(line, frame).map_err(|what| format!("line {number}: {what}"))?;
                plan.actions.extend(actions);
            }
        }
        Ok(plan)
    }

    /// The same with the lease requests of every node.
    pub fn with_requests(mut self, n: usize) -> Plan {
        let requests = (0..n as u64).map(|slot| [REQUEST_LEASE, slot, 0]);
        self.actions = requests.chain(self.actions).collect();
        self
    }

    /// The same with every expiry.
    pub fn with_expiries(mut self, n: usize) -> Plan {
        for (x, y) in (0..n as u64).flat_map(|x| (0..n as u64).map(move |y| (x, y))).filter(|(x, y)| x != y) {
            self.actions.extend([[LEASE_EXPIRED, x, y], [GRANT_EXPIRED, x, y]]);
        }
        self
    }

    /// The slots that the plan's joins name.
    pub fn joiners(&self) -> u64 {
        self.joins().fold(0, |marks, slot| marks | 1 << slot)
    }

    fn joins(&self) -> impl Iterator<Item = usize> + '_ {
        self.actions.iter().filter(|action| action[0] == JOIN).map(|action| action[1] as usize)
    }

    /// Whether the statuses forbid this action: 01's refusal 2, as far as it can be told by looking. Audited states ask for these too.
    pub fn forbids([number, x, y]: Words, records: &Records, state: &State) -> bool {
        let status = |slot: u64| records.place(state.nodes[slot as usize]).status;
        match number {
            JOIN => status(x) != DEAD || status(y) != READY,
            REQUEST_LEASE => status(x) != OK,
            LEASE_EXPIRED | GRANT_EXPIRED => status(x) < OK,
            _ => false,
        }
    }

    /// Whether the limits let this action be tried.
    pub fn allows(&self, action: Words, records: &Records, state: &State) -> bool {
        if action[0] != JOIN {
            return true;
        }
        let status = |slot: usize| records.place(state.nodes[slot]).status;
        let many = |wanted: &dyn Fn(u32) -> bool| {
            (0..state.nodes.len()).filter(|&slot| wanted(status(slot))).count()
        };
        let Limits { joining, waiting, in_order } = self.limits;
        joining.is_none_or(|most| many(&|status| status == WAIT || status == OK) < most)
            && waiting.is_none_or(|most| many(&|status| status == WAIT) < most)
            && (!in_order
                || self.joins().take_while(|&slot| slot as u64 != action[1]).all(|slot| status(slot) != DEAD))
    }
}
