//! Stack maps (01: pictures): for each instruction reached from an entry, the list of slots that
//! its procedure has on the stack there.

use super::layout::{place, Layout};
use crate::instruction::{Base, Instruction, Width};
use crate::set::Set;

/// 01: "at most 255".
const MOST_SLOTS: usize = 255;

#[derive(Clone, Copy, Debug, PartialEq, Eq)]
pub enum Slot {
    Word,
    /// The label that the ITER at this place (its origin, 01: maker) pushed.
    Iter(u16),
    /// The same for SWITCH and SWITCH_X.
    Switch(u16),
}

/// A slot list, bottom first.
type Slots = Vec<Slot>;

/// The slot list of each place that has one.
#[derive(Debug)]
pub struct StackMaps {
    slots: Vec<Option<Slots>>,
}

impl StackMaps {
    pub fn at(&self, place: usize) -> Option<&[Slot]> {
        self.slots.get(place)?.as_deref()
    }
}

/// Finds the least stack maps of all regions of a module, or none where some region has none.
pub fn infer(set: &Set, layouts: &[Layout], own: usize) -> Option<StackMaps> {
    let layout = &layouts[own];
    let mut inference = Inference {
        set,
        layout,
        own,
        parameters: layouts.iter().map(parameters).collect(),
        maps: vec![None; layout.code.len()],
        waiting: Vec::new(),
    };
    for region in &layout.regions {
        inference.give(region.start, vec![Slot::Word; layout.parameter_words(region)])?;
    }
    while let Some(place) = inference.waiting.pop() {
        inference.pass(place)?;
    }
    Some(StackMaps { slots: inference.maps })
}

/// Counts parameter words by procedure.
fn parameters(layout: &Layout) -> Vec<usize> {
    let mut parameters = vec![0; layout.regions.len()];
    for region in &layout.regions {
        parameters[region.procedure as usize] = layout.parameter_words(region);
    }
    parameters
}

struct Inference<'a> {
    set: &'a Set<'a>,
    layout: &'a Layout<'a>,
    /// Number of the module that the layout is of.
    own: usize,
    /// Parameter words by module and procedure.
    parameters: Vec<Vec<usize>>,
    maps: Vec<Option<Slots>>,
    waiting: Vec<usize>,
}

impl Inference<'_> {
    /// Gives an instruction its list: a first one, or exactly the one it has.
    fn give(&mut self, target: usize, slots: Slots) -> Option<()> {
        if slots.len() > MOST_SLOTS {
            return None;
        }
        match &self.maps[target] {
            Some(given) => (*given == slots).then_some(()),
            None => {
                self.maps[target] = Some(slots);
                self.waiting.push(target);
                Some(())
            }
        }
    }

    /// Applies the rule of the instruction at a place and gives every successor its list.
    fn pass(&mut self, at: usize) -> Option<()> {
        use Instruction::*;
        let layout = self.layout;
        let (placed, region) = layout.at(at)?;
        let mut slots = self.maps[at].clone()?;
        let origin = at as u16;
        match placed.instruction {
            Iter { exit } => {
                let mut skipped = slots.clone();
                pop_words(&mut skipped, 4)?;
                slots.push(Slot::Iter(origin));
                self.give(place(exit), skipped)?;
                self.give(placed.next, slots)
            }
            Next => {
                let Some(&Slot::Iter(origin)) = slots.last() else { return None };
                let body = layout.at(origin as usize)?.0.next;
                self.give(body, slots.clone())?;
                slots.pop();
                pop_words(&mut slots, 4)?;
                self.give(placed.next, slots)
            }
            Switch(table) => {
                pop_words(&mut slots, 1)?;
                slots.push(Slot::Switch(origin));
                for target in table.targets(layout.code) {
                    self.give(target as usize, slots.clone())?;
                }
                Some(())
            }
            Leave => {
                let Some(Slot::Switch(origin)) = slots.pop() else { return None };
                let Switch(table) = layout.at(origin as usize)?.0.instruction else { return None };
                self.give(table.exit(layout.code) as usize, slots)
            }
            Pop(count) => {
                let left = slots.len().checked_sub(count as usize)?;
                slots.truncate(left);
                self.give(placed.next, slots)
            }
            Rtn => {
                let (_, results) = self.signature(self.own, region.procedure);
                pop_words(&mut slots, results)?;
                slots.is_empty().then_some(())
            }
            JumpT(target) | JumpF(target) => {
                let kept = slots.clone();
                pop_words(&mut slots, 1)?;
                self.give(place(target), kept)?;
                self.give(placed.next, slots)
            }
            instruction => {
                let (pops, pushes) = self.effect(instruction);
                pop_words(&mut slots, pops)?;
                slots.resize(slots.len() + pushes, Slot::Word);
                for target in placed.successors(layout.code) {
                    self.give(target, slots.clone())?;
                }
                Some(())
            }
        }
    }

    /// Gives parameter and result words of a procedure, "taken from its own module".
    fn signature(&self, module: usize, procedure: u32) -> (usize, usize) {
        let procedure = procedure as usize;
        let results = self.set.modules[module].results[procedure];
        (self.parameters[module][procedure], results.into())
    }

    /// Words popped and pushed by an instruction that deals with words only.
    fn effect(&self, instruction: Instruction) -> (usize, usize) {
        use Instruction::*;
        let words = |width| if width == Width::Two { 2 } else { 1 };
        let pointer = |base| if base == Base::Pointer { 1 } else { 0 };
        match instruction {
            LoadConstant(_) => (0, 1),
            Load(base, _, width) => (pointer(base), words(width)),
            LoadAddress(base, _) => (pointer(base), 1),
            Store(base, _, width) => (pointer(base) + words(width), 0),
            Swap => (2, 2),
            Binary(_) => (2, 1),
            NegI | Neg | Alloc => (1, 1),
            Free | JumpC(_) => (1, 0),
            LoadExternal(..) | LoadAddressExternal(..) => (0, 1),
            StoreExternal(..) => (1, 0),
            Call(procedure) => self.signature(self.own, procedure),
            CallExternal(library, procedure) => {
                self.signature(self.set.modules[self.own].library(library), procedure)
            }
            Enter { parameters, .. } => (parameters as usize, 0),
            Nop | Jump(_) => (0, 0),
            Iter { .. } | Next | Switch(_) | Leave | Pop(_) | Rtn | JumpT(_) | JumpF(_) => {
                unreachable!("has a rule of its own")
            }
        }
    }
}

/// Drops the top `count` slots, all of which must be words.
fn pop_words(slots: &mut Slots, count: usize) -> Option<()> {
    let left = slots.len().checked_sub(count)?;
    if slots[left..].iter().any(|&slot| slot != Slot::Word) {
        return None;
    }
    slots.truncate(left);
    Some(())
}
