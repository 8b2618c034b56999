//! Single-steps accepted sets of modules through the proved library and holds every state to the
//! stack maps, to the checks' workspaces and to the rest of the letter's demand 3. A record by
//! itself goes through the calls of one record.

use conformance::cases::{Answer, Case, Module, SetCall, SetCase, SetWords, Words};
use conformance::check::{self, topmost_label, Slot, StackMaps, STRIDE};
use conformance::ffi::PROVED;
use conformance::generate::damage::reroute;
use conformance::generate::program;
use conformance::generate::set;
use conformance::harness::{self, left_by_its_sum, wrapped, Expected, Tally, WRAPPING};
use conformance::instruction::{decode, Instruction};
use conformance::listing::listing;
use conformance::random::Random;
use conformance::set::{Lent, Set};

/// Programs, and the most steps of one.
const CASES: u64 = 60_000;
const MOST_STEPS: usize = 400;

/// Counted by the number of the called or returning module.
const CALLS: &str = "external calls";
const RETURNS: &str = "external returns";

/// Unsigned results that wrapped in a module, where the main one's would trap (02, K11).
const OTHER_RULE: &str = "wrapped in a library alone";

fn main() -> std::process::ExitCode {
    let mut expected = vec![
        Expected::new("steps", 0..=0, 1_000_000),
        Expected::new("end", 0..=0, 100),
        Expected::new("end", 30..=38, 20),
        Expected::new("left by its sum", 0..=0, 100),
        Expected { kind: "wrapped", numbers: WRAPPING.to_vec(), least: 100 },
    ];
    expected.push(Expected::new("modules", 1..=16, 20));
    expected.push(Expected::new(CALLS, 1..=5, 100));
    expected.push(Expected::new(RETURNS, 1..=5, 50));
    expected.push(Expected { kind: OTHER_RULE, numbers: WRAPPING.to_vec(), least: 10 });
    harness::main(CASES, &expected, compare)
}

fn compare(random: &mut Random, tally: &mut Tally) -> Result<(), String> {
    let modules = modules(random);
    let alone = modules.len() == 1 && random.percent(80);
    let lent: Vec<Lent> = modules.iter().map(Module::lend).collect();
    let set = Set::read(&lent).map_err(|number| format!("made a set with {number}"))?;
    let maps: Result<Vec<StackMaps>, u32> =
        (0..modules.len()).map(|own| check::examine(&set, own)).collect();
    let Ok(maps) = maps else {
        tally.note("not accepted", 0);
        return Ok(());
    };
    tally.note("modules", modules.len() as u32);
    let library = Proved { modules: &modules, alone };
    let workspaces: Result<Vec<Vec<u16>>, String> =
        (0..modules.len()).map(|own| library.checked(own, &set)).collect();
    let workspaces = workspaces?;
    let machine = library.loaded(random, &set)?;
    let mut follower = Follower { random, library, set: &set, maps, workspaces, active: vec![] };
    follower.follow(machine, tally).map_err(|difference| {
        let call = SetCall::Check { own: 0, workspace: vec![] };
        let code: String = modules.iter().map(|module| listing(&module.record)).collect();
        let case = Case::Set(SetCase { modules: modules.clone(), call });
        format!("{difference}\nrecords and results of {case}\n{code}")
    })
}

/// Makes the modules of a set, or one record.
fn modules(random: &mut Random) -> Vec<Module> {
    if random.percent(60) {
        let mut set = set::usual(random);
        if random.percent(30) {
            set::reroute(random, &mut set);
        }
        return set.modules();
    }
    let mut program = program::usual(random);
    if random.percent(30) {
        reroute(random, &mut program);
    }
    vec![Module { sid: 0, record: program.parts.assemble(), results: program.results }]
}

/// The proved library's calls on a set.
struct Proved<'a> {
    modules: &'a [Module],
    /// By the calls of one record.
    alone: bool,
}

impl Proved<'_> {
    /// Gives the workspace as the check of a module leaves it.
    fn checked(&self, own: usize, set: &Set) -> Result<Vec<u16>, String> {
        let workspace = vec![0xffff; STRIDE * set.modules[own].record.code.len()];
        let Module { record, results, .. } = self.modules[own].clone();
        let case = match self.alone {
            true => Case::Check { record, results, workspace },
            false => self.case(SetCall::Check { own: own as u32, workspace }),
        };
        match case.answer(&PROVED) {
            Answer::Check { number: 0, workspace } | Answer::SetCheck { number: 0, workspace } => {
                Ok(workspace)
            }
            _ => Err(format!("refused: {case}")),
        }
    }

    /// Gives the machine as the load leaves it.
    fn loaded(&self, random: &mut Random, set: &Set) -> Result<SetWords, String> {
        let parameters = random.below(set.modules[0].record.globals as usize + 1);
        let parameters = random.words(parameters);
        let more = random.pick(&[0, 5, 40, 100, 200, 400, 1000]);
        let memory = random.words(set.frames_at() as usize + more);
        let stack = random.pick(&[0, 3, 10, 20, 40, 100, 300, 300]);
        let stack = random.words(stack);
        let copy = vec![0xa5; set.copy_size()];
        let case = match self.alone {
            true => Case::Load { record: self.record(), parameters, memory, stack },
            false => self.case(SetCall::Load { parameters, copy, memory, stack }),
        };
        match case.answer(&PROVED) {
            Answer::Load { number: 0, machine } => Ok(alone(machine, set.copy())),
            Answer::SetLoad { number: 0, machine } if machine.copy == set.copy() => Ok(machine),
            _ => Err(format!("refused, or another copy: {case}")),
        }
    }

    /// Takes one step: end, place, steps and module, and the machine afterwards.
    fn step(&self, machine: &SetWords) -> Result<([u32; 4], SetWords), String> {
        let case = match self.alone {
            true => Case::Run { record: self.record(), budget: 1, machine: machine.words.clone() },
            false => self.case(SetCall::Run { budget: 1, machine: machine.clone() }),
        };
        match case.answer(&PROVED) {
            Answer::Run { ended: Ok([end, at, steps]), machine: after } => {
                Ok(([end, at, steps, 0], alone(after, machine.copy.clone())))
            }
            Answer::SetRun { ended: Ok(outcome), machine: after } => Ok((outcome, after)),
            _ => Err(format!("refused: {case}")),
        }
    }

    fn record(&self) -> Vec<u8> {
        self.modules[0].record.clone()
    }

    fn case(&self, call: SetCall) -> Case {
        Case::Set(SetCase { modules: self.modules.to_vec(), call })
    }
}

/// Makes the machine of a record by itself.
fn alone(words: Words, copy: Vec<u8>) -> SetWords {
    SetWords { module: 0, copy, words }
}

/// An active call: whose, where its segment of the stack (01: share) begins, and its link words.
struct Active {
    module: usize,
    procedure: u32,
    base: usize,
    link: usize,
    words: Vec<u32>,
}

struct Follower<'a> {
    random: &'a mut Random,
    library: Proved<'a>,
    set: &'a Set<'a>,
    /// By module.
    maps: Vec<StackMaps>,
    workspaces: Vec<Vec<u16>>,
    active: Vec<Active>,
}

impl Follower<'_> {
    fn follow(&mut self, mut machine: SetWords, tally: &mut Tally) -> Result<(), String> {
        let first = machine.words.memory[..self.set.frames_at() as usize].to_vec();
        for _ in 0..MOST_STEPS {
            self.hold(&machine, &first)?;
            let (end, after) = self.step(&machine)?;
            if self.random.percent(3) {
                self.hide_below(&machine, &after, end)?;
            }
            tally.note("end", end);
            match end {
                1 => {}
                0 => return Ok(()),
                30..=38 if after == machine => return Ok(()),
                _ => return Err(format!("end {end} at {}", machine.words.state[0])),
            }
            self.note_step(&machine, &after, tally);
            let base = self.base();
            if after.words.stack[..base] != machine.words.stack[..base] {
                return Err(format!("a word below {base} changed at {}", machine.words.state[0]));
            }
            self.track_calls(&machine, tally);
            machine = after;
        }
        self.hold(&machine, &first)
    }

    fn note_step(&self, machine: &SetWords, after: &SetWords, tally: &mut Tally) {
        tally.note("steps", 0);
        let code = self.code(machine);
        let opcode = Some(code[machine.words.state[0] as usize].into());
        if left_by_its_sum(opcode, &machine.words, &after.words) {
            tally.note("left by its sum", 0);
        }
        if let Some(opcode) = wrapped(opcode, &machine.words) {
            tally.note("wrapped", opcode);
            if !self.set.modules[0].record.wraps {
                tally.note(OTHER_RULE, opcode);
            }
        }
    }

    /// Takes one step and holds its outcome to it: end and machine afterwards.
    fn step(&self, machine: &SetWords) -> Result<(u32, SetWords), String> {
        let ([end, at, steps, module], after) = self.library.step(machine)?;
        let counted = u32::from(end <= 1);
        let (state, of) = if end == 1 { (&after, after.module) } else { (machine, machine.module) };
        if (at, steps, module) != (state.words.state[0], counted, of) {
            return Err(format!("end {end} at {at} of {module} with {steps} steps: {machine}"));
        }
        if after.copy != machine.copy {
            return Err(format!("the copy changed: {machine}"));
        }
        Ok((end, after))
    }

    /// Gives the running module's code in the copy.
    fn code<'b>(&self, machine: &'b SetWords) -> &'b [u8] {
        &machine.copy[self.set.modules[machine.module as usize].copy()]
    }

    /// Tells the running procedure and its module.
    fn running(&self) -> (usize, u32) {
        self.active.last().map_or((0, 0), |active| (active.module, active.procedure))
    }

    fn base(&self) -> usize {
        self.active.last().map_or(0, |active| active.base)
    }

    /// Holds a state to all that holds of every state.
    fn hold(&self, machine: &SetWords, first: &[u32]) -> Result<(), String> {
        let Words { state: [pc, _, _, gp, height, calls], memory, stack } = &machine.words;
        let place = *pc as usize;
        let fail = |what: &str| Err(format!("{what} at {place}: {machine}"));
        let (number, procedure) = self.running();
        let module = &self.set.modules[number];
        if machine.module as usize != number || *gp != module.globals_at() {
            return fail("module or GP unlike the running procedure's");
        }
        let regions = module.record.regions();
        let running = regions.iter().find(|region| region.procedure == procedure);
        if !running.is_some_and(|region| (region.start..region.end).contains(&place)) {
            return fail("outside the running procedure");
        }
        let Some(slots) = self.maps[number].at(place) else { return fail("no stack map") };
        if *calls as usize != self.active.len() || *height as usize != self.base() + slots.len() {
            return fail("height or calls unlike the stack map's");
        }
        let entry = &self.workspaces[number][STRIDE * place..][..STRIDE];
        let label = topmost_label(slots).map_or(0, |origin| origin + 1);
        if entry != [slots.len() as u16 + 1, label, 0, 0] {
            return fail("workspace unlike the stack map");
        }
        let (code, segment) = (self.code(machine), &stack[self.base()..]);
        if !slots.iter().zip(segment).all(|(&slot, &word)| label_stands(code, slot, word)) {
            return fail("label word unlike its origin's");
        }
        self.hold_protected(memory, first).or_else(|what| fail(&what))
    }

    /// Holds header words and constants of every module, and the links of every active call.
    fn hold_protected(&self, memory: &[u32], first: &[u32]) -> Result<(), String> {
        for module in &self.set.modules {
            let header = module.frame_at() as usize..module.globals_at() as usize;
            let constants = module.constants_at() as usize..module.end() as usize;
            if [header, constants].into_iter().any(|part| memory[part.clone()] != first[part]) {
                return Err("header or constants changed".to_string());
            }
        }
        if !self.active.iter().all(|call| memory[call.link..].starts_with(&call.words)) {
            return Err("link words changed".to_string());
        }
        Ok(())
    }

    /// Follows CALL, CALL_E and RTN.
    fn track_calls(&mut self, before: &SetWords, tally: &mut Tally) {
        let code = self.code(before);
        let [place, fp, mp, gp, height, _] = before.words.state;
        let Ok((instruction, next)) = decode(code, code.len(), place as usize) else { return };
        let number = before.module as usize;
        let return_to = next as u32;
        let (module, procedure, words) = match instruction {
            Instruction::Call(procedure) => (number, procedure, vec![fp, return_to]),
            Instruction::CallExternal(library, procedure) => {
                tally.note(CALLS, library);
                (library as usize, procedure, vec![gp, fp, return_to.wrapping_neg()])
            }
            Instruction::Rtn => {
                if self.active.pop().is_some_and(|call| call.words.len() == 3) {
                    tally.note(RETURNS, before.module);
                }
                return;
            }
            _ => return,
        };
        let entry = self.set.modules[module].record.entry(procedure) as usize;
        let parameters = self.maps[module].at(entry).map_or(0, <[Slot]>::len);
        let base = height as usize - parameters;
        self.active.push(Active { module, procedure, base, link: mp as usize, words });
    }

    /// A step does not read below the segment: other words there make no difference.
    fn hide_below(&mut self, machine: &SetWords, after: &SetWords, end: u32) -> Result<(), String> {
        let base = self.base();
        let place = machine.words.state[0];
        let mut other = machine.clone();
        other.words.stack[..base].fill_with(|| self.random.word());
        let (other_end, mut other_after) = self.step(&other)?;
        let below = &mut other_after.words.stack[..base];
        if below != &other.words.stack[..base] {
            return Err(format!("a word below {base} changed at {place}"));
        }
        below.copy_from_slice(&after.words.stack[..base]);
        if (other_end, &other_after) != (end, after) {
            return Err(format!("a word below {base} was read at {place}"));
        }
        Ok(())
    }
}

/// Does a label slot hold the word that its origin pushes?
fn label_stands(code: &[u8], slot: Slot, word: u32) -> bool {
    let origin = |at: u16| decode(code, code.len(), at as usize);
    match slot {
        Slot::Word => true,
        Slot::Iter(at) => origin(at).is_ok_and(|(_, next)| next as u32 == word),
        Slot::Switch(at) => match origin(at) {
            Ok((Instruction::Switch(table), _)) => table.exit(code) == word,
            _ => false,
        },
    }
}
