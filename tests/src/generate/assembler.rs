//! Code with symbolic labels, turned into bytes with relative distances.

#[derive(Clone, Copy, Debug, PartialEq, Eq)]
pub struct Label(usize);

#[derive(Clone, Copy, Debug, PartialEq, Eq)]
pub enum Branch {
    Jump,
    JumpC,
    JumpT,
    JumpF,
    Iter,
}

enum Item {
    Bytes(Vec<u8>),
    Mark(Label),
    /// `wide`: the halfword form of JUMP and JUMP_C.
    Branch {
        kind: Branch,
        to: Label,
        wide: bool,
    },
    Switch {
        exit: Label,
        otherwise: Label,
        branches: Vec<Label>,
    },
    SwitchX {
        exit: Label,
        otherwise: Label,
        ranges: Vec<Range>,
    },
}

/// One range of SWITCH_X; without a label its distance is 0.
pub struct Range {
    pub lower: i32,
    pub upper: i32,
    pub to: Option<Label>,
}

#[derive(Default)]
pub struct Assembler {
    items: Vec<Item>,
    labels: usize,
}

impl Assembler {
    pub fn bytes(&mut self, bytes: &[u8]) {
        match self.items.last_mut() {
            Some(Item::Bytes(before)) => before.extend(bytes),
            _ => self.items.push(Item::Bytes(bytes.to_vec())),
        }
    }

    pub fn label(&mut self) -> Label {
        self.labels += 1;
        Label(self.labels - 1)
    }

    pub fn mark(&mut self, label: Label) {
        self.items.push(Item::Mark(label));
    }

    pub fn branch(&mut self, kind: Branch, to: Label, wide: bool) {
        self.items.push(Item::Branch { kind, to, wide });
    }

    pub fn switch(&mut self, exit: Label, otherwise: Label, branches: Vec<Label>) {
        self.items.push(Item::Switch { exit, otherwise, branches });
    }

    pub fn switch_x(&mut self, exit: Label, otherwise: Label, ranges: Vec<Range>) {
        self.items.push(Item::SwitchX { exit, otherwise, ranges });
    }

    /// The bytes, or none where a distance does not fit its operand.
    pub fn assemble(mut self) -> Option<Vec<u8>> {
        let mut targets = self.targets();
        while self.widen(&targets) {
            targets = self.targets();
        }
        let mut code = Vec::new();
        for item in &self.items {
            item.encode(&targets, &mut code)?;
        }
        Some(code)
    }

    /// Place of each label.
    fn targets(&self) -> Vec<usize> {
        let mut targets = vec![0; self.labels];
        let mut place = 0;
        for item in &self.items {
            if let Item::Mark(label) = item {
                targets[label.0] = place;
            }
            place += item.length();
        }
        targets
    }

    /// Widens the short jumps that do not reach their labels; were there any?
    fn widen(&mut self, targets: &[usize]) -> bool {
        let mut widened = false;
        let mut place = 0;
        for item in &mut self.items {
            let length = item.length();
            if let Item::Branch { kind: Branch::Jump | Branch::JumpC, to, wide } = item {
                let distance = targets[to.0] as i64 - place as i64;
                if !*wide && i8::try_from(distance).is_err() {
                    *wide = true;
                    widened = true;
                }
            }
            place += length;
        }
        widened
    }
}

impl Item {
    fn length(&self) -> usize {
        match self {
            Item::Bytes(bytes) => bytes.len(),
            Item::Mark(_) => 0,
            Item::Branch { kind: Branch::Iter, .. } => 3,
            Item::Branch { kind: Branch::JumpT | Branch::JumpF, .. } => 2,
            Item::Branch { wide, .. } => 2 + usize::from(*wide),
            Item::Switch { branches, .. } => 7 + 2 * branches.len(),
            Item::SwitchX { ranges, .. } => 7 + 10 * ranges.len(),
        }
    }

    fn encode(&self, targets: &[usize], code: &mut Vec<u8>) -> Option<()> {
        let place = code.len();
        let distance = |label: &Label| targets[label.0] as i64 - place as i64;
        let unsigned = |label: &Label| u16::try_from(distance(label)).ok().map(u16::to_be_bytes);
        match self {
            Item::Bytes(bytes) => code.extend(bytes),
            Item::Mark(_) => {}
            Item::Branch { kind, to, wide } => {
                let opcode = match (kind, wide) {
                    (Branch::Jump, false) => 0xda,
                    (Branch::Jump, true) => 0xdb,
                    (Branch::JumpC, false) => 0xdc,
                    (Branch::JumpC, true) => 0xdd,
                    (Branch::JumpT, _) => 0xde,
                    (Branch::JumpF, _) => 0xdf,
                    (Branch::Iter, _) => 0xe0,
                };
                code.push(opcode);
                match opcode {
                    0xda | 0xdc => code.push(i8::try_from(distance(to)).ok()? as u8),
                    0xdb | 0xdd => code.extend(i16::try_from(distance(to)).ok()?.to_be_bytes()),
                    0xde | 0xdf => code.push(u8::try_from(distance(to)).ok()?),
                    _ => code.extend(unsigned(to)?),
                }
            }
            Item::Switch { exit, otherwise, branches } => {
                code.push(0xe2);
                code.extend((branches.len() as u16 - 1).to_be_bytes());
                for label in [exit, otherwise].into_iter().chain(branches) {
                    code.extend(unsigned(label)?);
                }
            }
            Item::SwitchX { exit, otherwise, ranges } => {
                code.push(0xe3);
                code.extend((ranges.len() as u16).to_be_bytes());
                code.extend(unsigned(exit)?);
                code.extend(unsigned(otherwise)?);
                for Range { lower, upper, to } in ranges {
                    code.extend(lower.to_be_bytes());
                    code.extend(upper.to_be_bytes());
                    code.extend(to.as_ref().map_or(Some([0, 0]), unsigned)?);
                }
            }
        }
        Some(())
    }
}
