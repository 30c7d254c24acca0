//! Plans of NAKs for what is missing of a scope: made, and checked.
use crate::ffi;
use crate::{Header, Pair, Refusal};

/// What is to be planned for.
#[derive(Clone, Copy, Debug, PartialEq, Eq)]
pub struct Missing<'a> {
    /// That the NAKs will have.
    pub header: &'a Header,
    /// How many bytes a NAK has at most.
    pub packet: usize,
    /// The whole scope.
    pub scope: Pair,
    /// What of it is there: ranges that rise, and stay apart.
    pub received: &'a [Pair],
}

/// A NAK of a plan: its scope, and how many of the plan's requests are its own, in their order.
#[derive(Clone, Copy, Debug, Default, PartialEq, Eq, Hash)]
#[repr(C)]
#[allow(missing_docs)]
pub struct PlannedNak {
    pub scope: Pair,
    pub requests: u64,
}

/// How many were stored.
#[derive(Clone, Copy, Debug, PartialEq, Eq, Hash)]
#[allow(missing_docs)]
pub struct Planned {
    pub requests: usize,
    pub naks: usize,
}

impl Missing<'_> {
    /// Stores a plan, which `accepts` accepts: a request for each range that is missing, in as few NAKs as hold them.
    pub fn plan(&self, requests: &mut [Pair], naks: &mut [PlannedNak]) -> Result<Planned, Refusal> {
        let answer = ffi::plan(self, requests, naks)?;
        Ok(Planned {
            requests: answer[ffi::PLAN_REQUESTS] as usize,
            naks: answer[ffi::PLAN_NAKS] as usize,
        })
    }

    /// Whether a plan, of anyone's, asks for exactly what is missing, in NAKs that fit.
    pub fn accepts(&self, requests: &[Pair], naks: &[PlannedNak]) -> Result<bool, Refusal> {
        Ok(ffi::plan_check(self, requests, naks)?[ffi::VALUE] != 0)
    }
}
