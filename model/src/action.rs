//! What guide statements and plate instructions have in common.

/// The statements that become the instruction of their name.
#[derive(Clone, Debug, PartialEq, Eq)]
pub enum Action<'a> {
    Input { register: u8, text: &'a [u8] },
    Inputs { register: u8, text: &'a [u8], options: Vec<&'a [u8]> },
    Print { text: &'a [u8] },
    Printex { text: &'a [u8] },
}

/// The comparison of an if.
#[derive(Clone, Copy, Debug, PartialEq, Eq)]
pub struct Test {
    pub register: u8,
    pub op: Op,
    pub constant: i32,
}

#[derive(Clone, Copy, Debug, PartialEq, Eq)]
pub enum Op {
    Eq,
    Ne,
    Lt,
    Le,
    Gt,
    Ge,
}

impl Op {
    /// In the order of their plate codes, from 0.
    pub const ALL: [Op; 6] = [Op::Eq, Op::Ne, Op::Lt, Op::Le, Op::Gt, Op::Ge];

    pub fn name(self) -> &'static [u8] {
        match self {
            Op::Eq => b"eq",
            Op::Ne => b"ne",
            Op::Lt => b"lt",
            Op::Le => b"le",
            Op::Gt => b"gt",
            Op::Ge => b"ge",
        }
    }

    pub fn from_name(name: &[u8]) -> Option<Op> {
        Op::ALL.into_iter().find(|op| op.name() == name)
    }

    pub fn code(self) -> u32 {
        self as u32
    }

    pub fn from_code(code: u32) -> Option<Op> {
        Op::ALL.get(code as usize).copied()
    }

    pub fn holds(self, value: i32, constant: i32) -> bool {
        match self {
            Op::Eq => value == constant,
            Op::Ne => value != constant,
            Op::Lt => value < constant,
            Op::Le => value <= constant,
            Op::Gt => value > constant,
            Op::Ge => value >= constant,
        }
    }
}
