//! The machine of a hall: one machine for each catalogue beside the hall limit.
//! Rests on `machine` for the calls, each of which knows of the other catalogues only what `Beside` has.

use crate::catalogue::{Catalogue, LedCall, Limits};
use crate::machine::{Answer, Beside, Machine};

/// One state for each catalogue, in turn, and the hall limit.
#[derive(Clone, Debug, PartialEq, Eq)]
pub struct HallMachine<'a> {
    pub limit: u64,
    pub machines: Vec<Machine<'a>>,
}

impl<'a> HallMachine<'a> {
    /// A fresh machine for each catalogue.
    pub fn fresh(catalogues: &'a [Catalogue], limit: u64) -> Self {
        let machines = catalogues.iter().map(Machine::fresh).collect();
        HallMachine { limit, machines }
    }

    /// The bales of each session over all catalogues, session 1 first, for as many sessions as the
    /// entry allows. A catalogue has none in a session past its own count.
    pub fn session_bales(&self) -> Vec<u64> {
        together(self.machines.iter())
    }

    /// What a call of this catalogue, counted from 1, knows of the others.
    pub fn beside(&self, catalogue: usize) -> Beside {
        let others = || {
            let numbered = (1..).zip(&self.machines);
            numbered.filter_map(|(number, machine)| (number != catalogue).then_some(machine))
        };
        Beside {
            limit: Some(self.limit),
            bales: together(others()),
            lots: others()
                .map(|other| other.catalogue.lots_in_sale().count() as u64)
                .sum(),
            marks: others().map(|other| other.catalogue.mark_count()).sum(),
        }
    }

    /// Runs one call on its catalogue's machine. A refused one gives its number and changes nothing.
    pub fn call(&mut self, led: &LedCall) -> Result<Answer, u32> {
        let beside = self.beside(led.catalogue);
        let machine = &mut self.machines[led.catalogue - 1];
        machine.beside = beside;
        let answer = machine.call(&led.call);
        machine.beside = Beside::default();
        answer
    }
}

/// The bales of each session that these machines have together.
fn together<'m, 'a: 'm>(machines: impl Iterator<Item = &'m Machine<'a>>) -> Vec<u64> {
    let mut bales = vec![0; Limits::default().sessions as usize];
    for machine in machines {
        for (sum, own) in bales.iter_mut().zip(machine.session_bales()) {
            *sum += own;
        }
    }
    bales
}
