//! Messages to try: commands with values at their edges, and what can be wrong with a message.

use independent::engine::EDGES;
use independent::{Argument, Call, Message};

/// "ping" with one parameter "freq", 440.0.
pub const PING: &[u8] = b"SCgf\0\0\0\x02\0\x01\x04ping\0\0\0\0\0\0\0\x01\x43\xdc\0\0\
    \0\0\0\x01\x04freq\0\0\0\0\0\0\0\0\0\0";

/// How many kinds of commands there are, with export.
pub const KINDS: u32 = 27;

/// Places from the front and the back of a message whose bytes are all damaged; between them, some.
const FRONT: usize = 72;
const BACK: usize = 12;

/// Names of every length from 0 to 9, some that something has, and the longest of a file.
pub fn names() -> Vec<Vec<u8>> {
    let mut names: Vec<Vec<u8>> = (0..10).map(|length| vec![b'n'; length]).collect();
    names.extend([b"ping".to_vec(), b"freq".to_vec(), b"\x01\x7f".to_vec()]);
    names.extend([vec![b'l'; 255], vec![b'l'; 256], (1..=127).collect()]);
    names
}

/// Names with a byte that no string can have.
pub fn bad_names() -> Vec<Vec<u8>> {
    let bad = [
        &b"\0"[..],
        b"\x80",
        b"\xff",
        b"pin\0",
        b"ping\0",
        b"ping\0g",
        b"\0ping",
        b"ping\x80",
        b"\xffping",
    ];
    bad.map(<[u8]>::to_vec).to_vec()
}

/// Files of every length modulo four, whole and not.
pub fn files() -> Vec<Vec<u8>> {
    let none = &PING[..8];
    let mut files = vec![PING.to_vec(), [none, b"\0\0"].concat()];
    files.extend((0..=12).map(|length| PING[..length].to_vec()));
    files.extend([PING[..45].to_vec(), [PING, b"\0"].concat()]);
    let mut twice = [none, b"\0\x02", &PING[10..], &PING[10..]].concat();
    files.push(twice.clone());
    // The second is named "pinh".
    twice[10 + 36 + 4] += 1;
    files.push(twice);
    files
}

/// The commands of a kind: each thing that it takes at its edges, while the others are plausible.
pub fn edges(op: u32) -> Vec<Call> {
    let plausible = [
        [1000, 0, 0, 0, 0x3f80_0000],
        [1, 1000, 1, 1, 5],
        [2000, 1, 1, 1, -5],
    ];
    let bytes = match op {
        1 => PING,
        2 | 3 => b"ping",
        _ => b"freq",
    };
    let mut list = Vec::new();
    for numbers in plausible {
        list.push(Call::new(op, numbers, bytes));
        for place in 0..3 {
            let mut number = |number| {
                let mut numbers = numbers;
                numbers[place] = number;
                list.push(Call::new(op, numbers, bytes));
            };
            EDGES.into_iter().for_each(&mut number);
            [3, 4, 5, 31, 32, 1000, 1001, 2000, 4095, 4096, 0x0102_0304]
                .into_iter()
                .for_each(&mut number);
        }
        for (mark, patterns) in [
            (0, [0, i32::MIN, 0x7f80_0001, 0x7fc0_0000, -1, 0x4080_0000]),
            (1, [0, 16_777_216, 16_777_217, -16_777_217, i32::MIN, -1]),
        ] {
            for pattern in patterns {
                let [a, b, c, ..] = numbers;
                list.push(Call::new(op, [a, b, c, mark, pattern], bytes));
            }
        }
        let others = if op == 1 { files() } else { names() };
        list.extend(others.iter().map(|bytes| Call::new(op, numbers, bytes)));
    }
    list
}

/// The bytes of a message: strings are padded, and so are bytes, with more zeros than they need if
/// wanted.
pub fn osc(address: &[u8], arguments: &[Argument], more: [usize; 3]) -> Vec<u8> {
    let mut bytes = address.to_vec();
    pad(4 - bytes.len() % 4 + more[0], &mut bytes);
    bytes.push(b',');
    bytes.extend(arguments.iter().map(|argument| match argument {
        Argument::Int(_) => b'i',
        Argument::Float(_) => b'f',
        Argument::String(_) => b's',
        Argument::Bytes(_) => b'b',
    }));
    pad(4 - bytes.len() % 4 + more[1], &mut bytes);
    for argument in arguments {
        match argument {
            Argument::Int(number) => bytes.extend(number.to_be_bytes()),
            Argument::Float(pattern) => bytes.extend(pattern.to_be_bytes()),
            Argument::String(text) => {
                bytes.extend_from_slice(text);
                pad(4 - text.len() % 4 + more[2], &mut bytes);
            }
            Argument::Bytes(blob) => {
                bytes.extend((blob.len() as u32).to_be_bytes());
                bytes.extend_from_slice(blob);
                pad((4 - blob.len() % 4) % 4 + more[2], &mut bytes);
            }
        }
    }
    bytes
}

fn pad(count: usize, bytes: &mut Vec<u8>) {
    bytes.resize(bytes.len() + count, 0);
}

/// Sends on what a message becomes by one fault of its bytes: a byte changed, taken out or put in, the
/// end cut off, bytes behind the end.
pub fn damaged(message: &[u8], mut send: impl FnMut(&[u8])) {
    let mut bytes = message.to_vec();
    for place in (0..message.len()).filter(|&place| looked_at(place, message.len())) {
        let old = message[place];
        for byte in [
            0,
            1,
            b',',
            b'b',
            b'f',
            b'i',
            b's',
            b'/',
            old ^ 1,
            old ^ 0x20,
            old ^ 0x80,
            0xff,
        ] {
            if byte != old {
                bytes[place] = byte;
                send(&bytes);
            }
        }
        bytes[place] = old;
        send(&message[..place]);
        let (front, back) = message.split_at(place);
        send(&[front, &back[1..]].concat());
        send(&[front, &[0], back].concat());
    }
    for count in 1..=8 {
        for byte in [0, b'i', 0xff] {
            send(&[message, &vec![byte; count]].concat());
        }
    }
}

fn looked_at(place: usize, length: usize) -> bool {
    place < FRONT || place + BACK >= length || place % 37 == 0
}

/// Sends on messages with the parts of this one, of which one is another: the address, an argument
/// that is of another kind, missing, twice or too much, padding that is too long, a length of bytes.
pub fn recast(message: &[u8], mut send: impl FnMut(&[u8])) {
    let read = Message::of(message).expect("it is of the right form");
    let arguments = read.arguments().expect("they are few");
    let address = read.address;
    let none = [0; 3];
    for other in addresses(address) {
        send(&osc(&other, arguments, none));
    }
    for more in [[4, 0, 0], [0, 4, 0], [0, 0, 4], [8, 0, 0], [1, 3, 0]] {
        send(&osc(address, arguments, more));
    }
    let kinds = [
        Argument::Int(1000),
        Argument::Float(0x3f80_0000),
        Argument::String(b"freq"),
        Argument::String(b""),
        Argument::Bytes(b"SCgf"),
        Argument::Bytes(b""),
    ];
    let mut changed = arguments.to_vec();
    for place in 0..=arguments.len() {
        for kind in kinds {
            changed.insert(place, kind);
            send(&osc(address, &changed, none));
            changed.remove(place);
            if place < arguments.len() {
                changed[place] = kind;
                send(&osc(address, &changed, none));
                changed[place] = arguments[place];
            }
        }
        if place < arguments.len() {
            let taken = changed.remove(place);
            send(&osc(address, &changed, none));
            changed.insert(place, taken);
            changed.swap(place, 0);
            send(&osc(address, &changed, none));
            changed.swap(place, 0);
        }
    }
    for count in [5, 8, 9, 40] {
        for kind in kinds {
            changed.resize(count.max(changed.len()), kind);
            send(&osc(address, &changed, none));
            changed.truncate(arguments.len());
        }
    }
    // Tags that promise more or less than there is.
    let whole = osc(address, arguments, none);
    let front = osc(address, &[], none).len() - 4;
    let after = whole.len() - body(arguments);
    for tags in [
        &b",iiiiiiiiiiii\0\0\0"[..],
        b",\0\0\0",
        b"\0\0\0\0",
        b",,\0\0",
    ] {
        send(&[&whole[..front], tags, &whole[after..]].concat());
    }
    if let [Argument::Bytes(blob)] = arguments {
        let start = whole.len() - blob.len().next_multiple_of(4) - 4;
        let length = blob.len() as u32;
        let near = (0..12).map(|more| (length + more).wrapping_sub(6));
        let far = [
            u32::MAX,
            1 << 31,
            (1 << 31) - 1,
            (1 << 31) - 4,
            1 << 24,
            1 << 16,
        ];
        for length in near.chain(far) {
            let mut bytes = whole.clone();
            bytes[start..start + 4].copy_from_slice(&length.to_be_bytes());
            send(&bytes);
        }
    }
}

/// How many bytes arguments take: each alone, without an address and a tag of four bytes.
fn body(arguments: &[Argument]) -> usize {
    let alone = |&argument| osc(b"/", &[argument], [0; 3]).len() - 8;
    arguments.iter().map(alone).sum()
}

/// Addresses near one, and of other commands.
fn addresses(address: &[u8]) -> Vec<Vec<u8>> {
    let mut other = vec![
        b"/".to_vec(),
        b"".to_vec(),
        b"/quit".to_vec(),
        b"/export".to_vec(),
        b"#bundle".to_vec(),
        address[1..].to_vec(),
        address[..address.len() - 1].to_vec(),
        [address, b"x"].concat(),
        [address, b".reply"].concat(),
        [b"/", address].concat(),
        address.to_ascii_uppercase(),
        vec![b'/'; 300],
    ];
    let all = "/d_recv /d_free /s_new /g_new /n_free /g_freeAll /g_deepFree /n_before /n_after /g_head \
               /g_tail /n_run /n_set /n_fill /n_map /c_set /c_fill /s_get /c_get /n_query /g_queryTree \
               /status";
    other.extend(all.split(' ').map(|address| address.as_bytes().to_vec()));
    other
}
