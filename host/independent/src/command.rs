//! The commands of the paper, decoded, and the numbers by which they pass to the exported function.

/// A control by its index or by its name.
#[derive(Clone, Copy, Debug, PartialEq, Eq)]
pub enum Key<'a> {
    Index(i32),
    Name(&'a [u8]),
}

impl<'a> Key<'a> {
    /// The index, 0 for a name.
    fn index(self) -> i32 {
        match self {
            Key::Index(index) => index,
            Key::Name(_) => 0,
        }
    }

    /// The name, empty for an index.
    fn name(self) -> &'a [u8] {
        match self {
            Key::Index(_) => &[],
            Key::Name(name) => name,
        }
    }
}

/// A value as it was sent. A float is its 32 bits.
#[derive(Clone, Copy, Debug, PartialEq, Eq)]
pub enum Value {
    Float(u32),
    Integer(i32),
}

#[derive(Clone, Copy, Debug, PartialEq, Eq)]
pub enum Command<'a> {
    /// `/d_recv`
    Receive(&'a [u8]),
    /// `/d_free`
    Delete(&'a [u8]),
    /// `/s_new`
    NewSynth {
        definition: &'a [u8],
        number: i32,
        action: i32,
        target: i32,
    },
    /// `/g_new`
    NewGroup {
        number: i32,
        action: i32,
        target: i32,
    },
    /// `/n_free`
    Free(i32),
    /// `/g_freeAll`
    FreeAll(i32),
    /// `/g_deepFree`
    DeepFree(i32),
    /// `/n_before`
    Before(i32, i32),
    /// `/n_after`
    After(i32, i32),
    /// `/g_head`: the group first.
    Head(i32, i32),
    /// `/g_tail`: the group first.
    Tail(i32, i32),
    /// `/n_run`
    Run(i32, i32),
    /// `/n_set`
    Set {
        node: i32,
        key: Key<'a>,
        value: Value,
    },
    /// `/n_fill`
    Fill {
        node: i32,
        key: Key<'a>,
        count: i32,
        value: Value,
    },
    /// `/n_map`
    Map { node: i32, key: Key<'a>, bus: i32 },
    /// `/c_set`
    SetBus { bus: i32, value: Value },
    /// `/c_fill`
    FillBuses {
        start: i32,
        count: i32,
        value: Value,
    },
    /// `/s_get`
    Get { node: i32, key: Key<'a> },
    /// `/c_get`
    GetBus(i32),
    /// `/n_query`
    Query(i32),
    /// `/g_queryTree`
    QueryTree { group: i32, flag: i32 },
    /// `/status`
    Status,
    /// Has no address.
    Export,
    /// Has no address, and goes with a store only: settings of a version for a synth.
    Recall {
        definition: &'a [u8],
        version: u32,
        node: i32,
    },
}

/// The kind of a recall, the last.
pub const RECALL: u32 = 28;

/// A command as the exported function takes it: a number for its kind, five numbers and bytes.
/// Those that the kind has no use for may be anything.
#[derive(Clone, Debug, Default, PartialEq, Eq)]
pub struct Call {
    pub op: u32,
    pub numbers: [u32; 5],
    pub bytes: Vec<u8>,
}

impl Call {
    pub fn new(op: u32, numbers: [i32; 5], bytes: &[u8]) -> Call {
        Call {
            op,
            numbers: numbers.map(|number| number as u32),
            bytes: bytes.to_vec(),
        }
    }

    /// A command as a call.
    pub fn of(command: &Command) -> Call {
        let by = |key: Key, op: u32| match key {
            Key::Index(_) => op,
            Key::Name(_) => op + 1,
        };
        let (op, a, b, c) = match *command {
            Command::Receive(_) => (1, 0, 0, 0),
            Command::Delete(_) => (2, 0, 0, 0),
            Command::NewSynth {
                number,
                action,
                target,
                ..
            } => (3, number, action, target),
            Command::NewGroup {
                number,
                action,
                target,
            } => (4, number, action, target),
            Command::Free(node) => (5, node, 0, 0),
            Command::FreeAll(group) => (6, group, 0, 0),
            Command::DeepFree(group) => (7, group, 0, 0),
            Command::Before(node, place) => (8, node, place, 0),
            Command::After(node, place) => (9, node, place, 0),
            Command::Head(group, node) => (10, group, node, 0),
            Command::Tail(group, node) => (11, group, node, 0),
            Command::Run(node, flag) => (12, node, flag, 0),
            Command::Set { node, key, .. } => (by(key, 13), node, key.index(), 0),
            Command::Fill {
                node, key, count, ..
            } => (by(key, 15), node, key.index(), count),
            Command::Map { node, key, bus } => (by(key, 17), node, key.index(), bus),
            Command::SetBus { bus, .. } => (19, bus, 0, 0),
            Command::FillBuses { start, count, .. } => (20, start, 0, count),
            Command::Get { node, key } => (by(key, 21), node, key.index(), 0),
            Command::GetBus(bus) => (23, bus, 0, 0),
            Command::Query(node) => (24, node, 0, 0),
            Command::QueryTree { group, flag } => (25, group, flag, 0),
            Command::Status => (26, 0, 0, 0),
            Command::Export => (27, 0, 0, 0),
            Command::Recall { version, node, .. } => (RECALL, version as i32, node, 0),
        };
        let (mark, pattern) = match *command {
            Command::Set { value, .. }
            | Command::Fill { value, .. }
            | Command::SetBus { value, .. }
            | Command::FillBuses { value, .. } => match value {
                Value::Float(pattern) => (0, pattern as i32),
                Value::Integer(number) => (1, number),
            },
            _ => (0, 0),
        };
        let bytes = match *command {
            Command::Receive(bytes) | Command::Delete(bytes) => bytes,
            Command::NewSynth { definition, .. } | Command::Recall { definition, .. } => definition,
            Command::Set { key, .. }
            | Command::Fill { key, .. }
            | Command::Map { key, .. }
            | Command::Get { key, .. } => key.name(),
            _ => &[],
        };
        Call::new(op, [a, b, c, mark, pattern], bytes)
    }

    /// The command, if it is one without a store.
    pub fn command(&self) -> Option<Command<'_>> {
        let command = Command::of(self.op, self.numbers, &self.bytes);
        command.filter(|command| !command.needs_store())
    }
}

impl<'a> Command<'a> {
    /// Whether it replies and changes nothing.
    pub fn replies(&self) -> bool {
        matches!(
            self,
            Command::Get { .. }
                | Command::GetBus(_)
                | Command::Query(_)
                | Command::QueryTree { .. }
                | Command::Status
                | Command::Export
        )
    }

    /// Whether it is a recall.
    pub fn needs_store(&self) -> bool {
        matches!(self, Command::Recall { .. })
    }

    /// The command of a call, or none where the kind is unknown, or a value is marked neither float nor
    /// integer.
    pub fn of(op: u32, numbers: [u32; 5], bytes: &'a [u8]) -> Option<Command<'a>> {
        let [a, b, c, mark, pattern] = numbers;
        let [a, b, c] = [a, b, c].map(|pattern| pattern as i32);
        let index = Key::Index(b);
        let name = Key::Name(bytes);
        let value = match mark {
            0 => Some(Value::Float(pattern)),
            1 => Some(Value::Integer(pattern as i32)),
            _ => None,
        };
        let set = |key| {
            value.map(|value| Command::Set {
                node: a,
                key,
                value,
            })
        };
        let fill = |key| {
            value.map(|value| Command::Fill {
                node: a,
                key,
                count: c,
                value,
            })
        };
        let map = |key| Command::Map {
            node: a,
            key,
            bus: c,
        };
        Some(match op {
            1 => Command::Receive(bytes),
            2 => Command::Delete(bytes),
            3 => Command::NewSynth {
                definition: bytes,
                number: a,
                action: b,
                target: c,
            },
            4 => Command::NewGroup {
                number: a,
                action: b,
                target: c,
            },
            5 => Command::Free(a),
            6 => Command::FreeAll(a),
            7 => Command::DeepFree(a),
            8 => Command::Before(a, b),
            9 => Command::After(a, b),
            10 => Command::Head(a, b),
            11 => Command::Tail(a, b),
            12 => Command::Run(a, b),
            13 => return set(index),
            14 => return set(name),
            15 => return fill(index),
            16 => return fill(name),
            17 => map(index),
            18 => map(name),
            19 => {
                return value.map(|value| Command::SetBus { bus: a, value });
            }
            20 => {
                return value.map(|value| Command::FillBuses {
                    start: a,
                    count: c,
                    value,
                });
            }
            21 => Command::Get {
                node: a,
                key: index,
            },
            22 => Command::Get { node: a, key: name },
            23 => Command::GetBus(a),
            24 => Command::Query(a),
            25 => Command::QueryTree { group: a, flag: b },
            26 => Command::Status,
            27 => Command::Export,
            RECALL => Command::Recall {
                definition: bytes,
                version: a as u32,
                node: b,
            },
            _ => return None,
        })
    }
}
