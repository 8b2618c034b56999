//! Random states of the machine for a set of modules: such as fit, and such as do not.

use crate::cases::{SetWords, Words};
use crate::machine::{LARGEST_MEMORY, LARGEST_STACK};
use crate::random::{Random, EDGES};
use crate::set::{Module, Set};

/// Makes memory and stack for a fresh load that needs `least` words; now and then of a size that
/// it refuses.
pub fn fresh(random: &mut Random, least: usize) -> (Vec<u32>, Vec<u32>) {
    let memory = match random.below(40) {
        0 => least.saturating_sub(random.within(1..=3)),
        1 => least,
        2 => LARGEST_MEMORY,
        3 => LARGEST_MEMORY + random.within(0..=1),
        4..=25 => (least + random.below(200)).min(LARGEST_MEMORY.max(least)),
        _ => least + random.below(30),
    };
    let stack = match random.below(40) {
        0 => LARGEST_STACK + random.within(0..=1),
        1 => 0,
        2..=4 => random.within(200..=400),
        5..=20 => random.within(10..=60),
        _ => random.below(12),
    };
    (random.words(memory), random.words(stack))
}

/// An active call: its FP, and the first global of the module that it returns to, where its link
/// is an external one.
struct Frame {
    fp: usize,
    global_link: Option<u32>,
}

/// Makes a state that fits a sound set, but for one that now and then has a call too many, or an
/// external link whose saved FP is just as much lower as that of a local one.
pub fn fitting(random: &mut Random, set: &Set) -> SetWords {
    let start = set.frames_at() as usize;
    let frames = frames(random, set, start);
    let fp = frames.last().map_or(start, |frame| frame.fp);
    let roomy = random.percent(60);
    let mp = fp + if roomy { 20 } else { random.pick(&[0, 0, 1, 2, 3, 8]) };
    let mut memory_words = mp + if roomy { 40 } else { random.pick(&[0, 0, 1, 2, 3, 4, 10]) };
    if random.below(200) == 0 {
        memory_words = LARGEST_MEMORY;
    }
    let module = random.below(set.modules.len());
    let borders = frames.iter().map(|frame| frame.fp).chain([start]).collect();
    let pool = Pool { frames: borders, set, module: &set.modules[module], mp, memory_words };
    let mut memory: Vec<u32> = (0..memory_words).map(|_| pool.word(random)).collect();
    for (number, module) in set.modules.iter().enumerate() {
        memory[module.frame_at() as usize..][..3].copy_from_slice(&module.header(number));
    }
    let mut below = start;
    for Frame { fp, global_link } in &frames {
        write_link(random, &pool, &mut memory[..*fp], below as u32, *global_link);
        below = *fp;
    }
    let (stack, height) = stack(random, &pool);
    let gp = set.modules[module].globals_at();
    let calls = frames.len() as u32;
    let state = [pool.code_offset(random), fp as u32, mp as u32, gp, height as u32, calls];
    let words = Words { state, memory, stack };
    SetWords { module: module as u32, copy: copy(random, set), words }
}

/// Makes active calls from the first one on, some of them external.
fn frames(random: &mut Random, set: &Set, mut top: usize) -> Vec<Frame> {
    let calls = match random.below(20) {
        0..=7 => 0,
        8..=17 => random.within(1..=5),
        _ => random.pick(&[20, 63, 64, 64, 64, 65]),
    };
    let external = random.pick(&[0, 20, 50, 90]);
    let frame = |_| {
        let module = &set.modules[random.below(set.modules.len())];
        let global_link = random.percent(external).then(|| module.globals_at());
        let link_words = if global_link.is_some() && random.below(60) > 0 { 3 } else { 2 };
        top += link_words + random.pick(&[0, 0, 1, 2, 6]);
        Frame { fp: top, global_link }
    };
    (0..calls).map(frame).collect()
}

/// Writes the link words of a call at the end of the memory below its FP.
fn write_link(
    random: &mut Random,
    pool: &Pool,
    memory: &mut [u32],
    saved_fp: u32,
    global_link: Option<u32>,
) {
    let offset = pool.code_offset(random);
    let fp = memory.len();
    memory[fp - 2] = saved_fp;
    memory[fp - 1] = match global_link {
        None if offset as i32 > 0 => offset,
        None => 1 + (offset & 0xfff),
        Some(global_link) => {
            memory[fp - 3] = global_link;
            let numbers = [0, 1u32.wrapping_neg(), offset | 0x8000_0000, 0x8000_0000];
            match offset as i32 {
                0.. if random.percent(88) => offset.wrapping_neg(),
                _ => random.pick(&numbers),
            }
        }
    };
}

/// Makes the stack, and its height.
fn stack(random: &mut Random, pool: &Pool) -> (Vec<u32>, usize) {
    let words = match random.below(20) {
        0 => random.pick(&[1023, 1024]),
        1 => 0,
        _ => random.within(1..=14),
    };
    let height = match random.below(4) {
        0 => words,
        1 => words - words.min(2),
        _ => random.below(words + 1),
    };
    ((0..words).map(|_| pool.word(random)).collect(), height)
}

/// Makes the copy as the load writes it, now and then with anything behind.
pub fn copy(random: &mut Random, set: &Set) -> Vec<u8> {
    let mut copy = set.copy();
    let more = random.pick(&[0, 0, 0, 1, 9]);
    copy.extend(random.bytes(more));
    copy
}

/// A state that fits, mostly at procedure 0's entry of its module; where a loop begins or goes
/// round there, or an unsigned result may leave the range, mostly with words for it.
pub fn begun(random: &mut Random, set: &Set) -> SetWords {
    let mut machine = fitting(random, set);
    let record = &set.modules[machine.module as usize].record;
    if random.percent(70) {
        machine.words.state[0] = record.entry(0);
        match record.code[record.entry(0) as usize] {
            _ if random.percent(30) => {}
            // Into the middle, where something may be hidden.
            0x84 => machine.words.state[0] += 1,
            opcode @ (0xe0 | 0xe1) => loop_operands(random, set, &mut machine, opcode == 0xe1),
            0xa8..=0xaa => unsigned_operands(random, &mut machine.words),
            _ => {}
        }
    }
    machine
}

/// Puts two words on top of the stack, where there is room, whose sum, difference or product often
/// leaves the unsigned range.
fn unsigned_operands(random: &mut Random, words: &mut Words) {
    let height = words.state[4] as usize;
    if let [.., x, y] = &mut words.stack[..height] {
        for word in [x, y] {
            *word = if random.percent(50) { random.pick(&EDGES) } else { random.bits() };
        }
    }
}

/// Puts operands of ITER and NEXT on top of the stack, where there is room: address, first, last,
/// step and, for NEXT, label. Half of NEXT's variables lie at the end of the range that the step
/// leads to.
fn loop_operands(random: &mut Random, set: &Set, machine: &mut SetWords, label: bool) {
    let module = &set.modules[machine.module as usize];
    let words = &mut machine.words;
    let height = words.state[4] as usize;
    let count = if label { 5 } else { 4 };
    if height < count {
        return;
    }
    let frames = vec![words.state[1] as usize];
    let (mp, memory_words) = (words.state[2] as usize, words.memory.len());
    let pool = Pool { frames, set, module, mp, memory_words };
    let operands = [
        pool.address(random),
        random.word(),
        random.word(),
        if random.percent(50) { random.pick(&EDGES) } else { random.word() },
        pool.code_offset(random),
    ];
    words.stack[height - count..height].copy_from_slice(&operands[..count]);
    let [address, _, _, step, _] = operands;
    let global = |module: &Module| module.globals().contains(&address);
    let stored_to = set.modules.iter().any(global) || address >= set.frames_at();
    if label && random.percent(50) && stored_to && (address as usize) < mp {
        let end = if (step as i32) < 0 { i32::MIN } else { i32::MAX };
        words.memory[address as usize] = end as u32;
    }
}

/// Words that mean something to a state.
struct Pool<'a> {
    frames: Vec<usize>,
    set: &'a Set<'a>,
    /// The running module.
    module: &'a Module<'a>,
    mp: usize,
    memory_words: usize,
}

impl Pool<'_> {
    fn word(&self, random: &mut Random) -> u32 {
        match random.below(20) {
            0..=5 => self.address(random),
            6..=8 => random.below(2) as u32,
            9 => self.code_offset(random),
            _ => random.word(),
        }
    }

    /// An address at one of the borders: globals, constants, links, FP, MP, end of memory.
    fn address(&self, random: &mut Random) -> u32 {
        let module = &self.set.modules[random.below(self.set.modules.len())];
        let base = match random.below(8) {
            0 => module.globals_at() as usize,
            1 => module.constants_at() as usize,
            2 => module.end() as usize,
            3 | 4 => random.pick(&self.frames),
            5 => self.mp,
            6 => self.memory_words,
            _ => return random.below(self.mp + 1) as u32,
        };
        (base + random.below(5)).saturating_sub(3) as u32
    }

    fn code_offset(&self, random: &mut Random) -> u32 {
        let size = self.module.record.code.len();
        match random.below(40) {
            0 => size as u32,
            1 => random.word(),
            2..=11 => random.below(size) as u32,
            _ => {
                let region = random.pick(&self.module.record.regions());
                region.start as u32
            }
        }
    }
}

/// Makes one of the tests of a fitting state fail, or nearly.
pub fn unfit(random: &mut Random, words: &mut Words) {
    let Words { state: [pc, fp, mp, gp, height, calls], memory, stack } = words;
    let near = random.pick(&[0u32, 1, 2, 1u32.wrapping_neg(), 2u32.wrapping_neg()]);
    match random.below(16) {
        0 => memory[random.below(3)] = random.word(),
        1 => memory[2] = memory[2].wrapping_add(near),
        2 => *gp = random.pick(&[0, 2, 3, 4, u32::MAX]),
        3 => *fp = fp.wrapping_add(near),
        4 => *fp = random.word(),
        5 => *mp = mp.wrapping_add(near),
        6 => *mp = random.pick(&[memory.len() as u32, memory.len() as u32 + 1, u32::MAX, 0]),
        7 => *height = random.pick(&[stack.len() as u32, stack.len() as u32 + 1, u32::MAX]),
        8 => *calls = calls.wrapping_add(near),
        9 => *calls = random.pick(&[64, 65, 1000, u32::MAX]),
        10..=12 if *fp >= 3 && (*fp as usize) <= memory.len() => {
            unfit_link(random, &mut memory[..*fp as usize]);
        }
        13 => memory.truncate(random.below(memory.len() + 1)),
        14 => memory.resize(LARGEST_MEMORY + random.below(2), 7),
        15 => stack.resize(LARGEST_STACK + random.below(2), 7),
        _ => *pc = random.word(),
    }
}

/// Changes one of the last call's link words: global link, saved FP, return word.
fn unfit_link(random: &mut Random, memory: &mut [u32]) {
    let fp = memory.len();
    let near = random.pick(&[1, 2, 3]);
    match random.below(3) {
        0 => memory[fp - 3] = random.pick(&[0, 2, 3, 4, fp as u32, u32::MAX]),
        1 => memory[fp - 2] = random.pick(&[fp as u32, fp as u32 - near, 0, 1, u32::MAX]),
        _ => memory[fp - 1] = random.pick(&[0, 1, 0x7fff_ffff, 0x8000_0000, u32::MAX]),
    }
}

/// Does the same for what a set has besides: module, GP, the other header words, the copy, the
/// links.
pub fn unfit_set(random: &mut Random, machine: &mut SetWords, set: &Set) {
    let SetWords { module, copy, words: Words { state, memory, .. } } = machine;
    let other = random.below(set.modules.len());
    match random.below(8) {
        0 => *module = random.pick(&[0, 1, other as u32, set.modules.len() as u32, u32::MAX]),
        1 => state[3] = set.modules[other].globals_at().wrapping_add(random.pick(&[0, 1, 2])),
        2 => {
            let at = set.modules[other].frame_at() as usize + random.below(3);
            memory[at] = memory[at].wrapping_add(random.pick(&[1, u32::MAX]));
        }
        3 => {
            let at = random.below(copy.len());
            copy[at] ^= random.pick(&[1, 2, 0x80, 0xff]);
        }
        4 => copy.truncate(copy.len() - random.within(1..=12).min(copy.len())),
        5 if state[1] >= 3 && (state[1] as usize) <= memory.len() => {
            let globals_at = set.modules[other].globals_at();
            memory[state[1] as usize - 3] = random.pick(&[globals_at, globals_at - 1]);
        }
        _ => unfit(random, &mut machine.words),
    }
}
