//! Messages byte by byte, on the independent reader and writer.

use independent::{read_message, write_message, Call, Command, Fault, Key, Value};

/// The message is read as the command, and the command written as the message: with just enough room,
/// and with more, of which the rest stays. One byte less is refused, and nothing is written.
fn both_ways(message: &[u8], command: Command) {
    assert_eq!(read_message(message), Ok(command));
    let length = message.len();
    let mut buffer = vec![0xa5; length + 9];
    assert_eq!(write_message(&command, &mut buffer), Ok(length));
    assert_eq!(&buffer[..length], message);
    assert_eq!(buffer[length..], [0xa5; 9]);
    let mut buffer = vec![0xa5; length];
    assert_eq!(write_message(&command, &mut buffer), Ok(length));
    assert_eq!(buffer, message);
    let mut buffer = vec![0xa5; length - 1];
    assert_eq!(write_message(&command, &mut buffer), Err(fault(24)));
    assert!(buffer.iter().all(|&byte| byte == 0xa5));
    assert_eq!(write_message(&command, &mut []), Err(fault(24)));
}

fn fault(number: u32) -> Fault {
    Fault { number, place: 0 }
}

fn refused(number: u32, message: &[u8]) {
    assert_eq!(read_message(message), Err(fault(number)), "{message:02x?}");
}

#[test]
fn definitions() {
    let none = b"SCgf\0\0\0\x02\0\0";
    both_ways(
        b"/d_recv\0,b\0\0\0\0\0\x0aSCgf\0\0\0\x02\0\0\0\0",
        Command::Receive(none),
    );
    both_ways(b"/d_recv\0,b\0\0\0\0\0\0", Command::Receive(b""));
    both_ways(
        b"/d_recv\0,b\0\0\0\0\0\x01\xff\0\0\0",
        Command::Receive(b"\xff"),
    );
    both_ways(
        b"/d_recv\0,b\0\0\0\0\0\x03\0\0\x01\0",
        Command::Receive(b"\0\0\x01"),
    );
    both_ways(b"/d_recv\0,b\0\0\0\0\0\x04four", Command::Receive(b"four"));
    both_ways(b"/d_free\0,s\0\0ping\0\0\0\0", Command::Delete(b"ping"));
    both_ways(b"/d_free\0,s\0\0hat\0", Command::Delete(b"hat"));
    both_ways(b"/d_free\0,s\0\0\x01\x7f\0\0", Command::Delete(b"\x01\x7f"));
    both_ways(b"/d_free\0,s\0\0\0\0\0\0", Command::Delete(b""));
}

#[test]
fn nodes() {
    both_ways(
        b"/s_new\0\0,siii\0\0\0ping\0\0\0\0\0\0\x03\xe8\0\0\0\x01\0\0\0\0",
        Command::NewSynth {
            definition: b"ping",
            number: 1000,
            action: 1,
            target: 0,
        },
    );
    both_ways(
        b"/s_new\0\0,siii\0\0\0a\0\0\0\xff\xff\xff\xff\x80\0\0\0\x7f\xff\xff\xff",
        Command::NewSynth {
            definition: b"a",
            number: -1,
            action: i32::MIN,
            target: i32::MAX,
        },
    );
    both_ways(
        b"/g_new\0\0,iii\0\0\0\0\0\0\0\x01\0\0\0\x02\0\0\0\x03",
        Command::NewGroup {
            number: 1,
            action: 2,
            target: 3,
        },
    );
    both_ways(b"/n_free\0,i\0\0\0\0\0\x05", Command::Free(5));
    both_ways(b"/g_freeAll\0\0,i\0\0\0\0\0\x06", Command::FreeAll(6));
    both_ways(b"/g_deepFree\0,i\0\0\0\0\0\x07", Command::DeepFree(7));
    both_ways(
        b"/n_before\0\0\0,ii\0\0\0\0\x01\0\0\0\x02",
        Command::Before(1, 2),
    );
    both_ways(
        b"/n_after\0\0\0\0,ii\0\0\0\0\x01\0\0\0\x02",
        Command::After(1, 2),
    );
    both_ways(b"/g_head\0,ii\0\0\0\0\x01\0\0\0\x02", Command::Head(1, 2));
    both_ways(b"/g_tail\0,ii\0\0\0\0\x01\0\0\0\x02", Command::Tail(1, 2));
    both_ways(b"/n_run\0\0,ii\0\0\0\0\x01\0\0\0\0", Command::Run(1, 0));
}

#[test]
fn controls_and_buses() {
    let (index, name) = (Key::Index(2), Key::Name(b"freq"));
    let (float, integer) = (Value::Float(0x43dc_0000), Value::Integer(-3));
    both_ways(
        b"/n_set\0\0,iif\0\0\0\0\0\0\0\x09\0\0\0\x02\x43\xdc\0\0",
        Command::Set {
            node: 9,
            key: index,
            value: float,
        },
    );
    both_ways(
        b"/n_set\0\0,isi\0\0\0\0\0\0\0\x09freq\0\0\0\0\xff\xff\xff\xfd",
        Command::Set {
            node: 9,
            key: name,
            value: integer,
        },
    );
    both_ways(
        b"/n_fill\0,iiii\0\0\0\0\0\0\x09\0\0\0\x02\0\0\0\x04\xff\xff\xff\xfd",
        Command::Fill {
            node: 9,
            key: index,
            count: 4,
            value: integer,
        },
    );
    both_ways(
        b"/n_fill\0,isif\0\0\0\0\0\0\x09freq\0\0\0\0\0\0\0\x04\x43\xdc\0\0",
        Command::Fill {
            node: 9,
            key: name,
            count: 4,
            value: float,
        },
    );
    both_ways(
        b"/n_map\0\0,iii\0\0\0\0\0\0\0\x09\0\0\0\x02\xff\xff\xff\xff",
        Command::Map {
            node: 9,
            key: index,
            bus: -1,
        },
    );
    both_ways(
        b"/n_map\0\0,isi\0\0\0\0\0\0\0\x09freq\0\0\0\0\0\0\0\x07",
        Command::Map {
            node: 9,
            key: name,
            bus: 7,
        },
    );
    both_ways(
        b"/c_set\0\0,if\0\0\0\0\x07\x7f\xc0\0\x01",
        Command::SetBus {
            bus: 7,
            value: Value::Float(0x7fc0_0001),
        },
    );
    both_ways(
        b"/c_set\0\0,ii\0\0\0\0\x07\xff\xff\xff\xfd",
        Command::SetBus {
            bus: 7,
            value: integer,
        },
    );
    both_ways(
        b"/c_fill\0,iif\0\0\0\0\0\0\0\x07\0\0\0\x02\x43\xdc\0\0",
        Command::FillBuses {
            start: 7,
            count: 2,
            value: float,
        },
    );
    both_ways(
        b"/c_fill\0,iii\0\0\0\0\0\0\0\x07\0\0\0\x02\xff\xff\xff\xfd",
        Command::FillBuses {
            start: 7,
            count: 2,
            value: integer,
        },
    );
}

#[test]
fn queries() {
    both_ways(
        b"/s_get\0\0,ii\0\0\0\0\x09\0\0\0\x02",
        Command::Get {
            node: 9,
            key: Key::Index(2),
        },
    );
    both_ways(
        b"/s_get\0\0,is\0\0\0\0\x09amp\0",
        Command::Get {
            node: 9,
            key: Key::Name(b"amp"),
        },
    );
    both_ways(b"/c_get\0\0,i\0\0\0\0\0\x07", Command::GetBus(7));
    both_ways(
        b"/n_query\0\0\0\0,i\0\0\xff\xff\xff\xff",
        Command::Query(-1),
    );
    both_ways(
        b"/g_queryTree\0\0\0\0,ii\0\0\0\0\0\0\0\0\x01",
        Command::QueryTree { group: 0, flag: 1 },
    );
    both_ways(b"/status\0,\0\0\0", Command::Status);
}

#[test]
fn a_name_and_a_file_are_parts_of_the_message() {
    let message = b"/d_free\0,s\0\0ping\0\0\0\0";
    let Ok(Command::Delete(name)) = read_message(message) else {
        panic!("it is read");
    };
    assert_eq!(name.as_ptr_range(), message[12..16].as_ptr_range());
    let message = b"/d_recv\0,b\0\0\0\0\0\x04four";
    let Ok(Command::Receive(file)) = read_message(message) else {
        panic!("it is read");
    };
    assert_eq!(file.as_ptr_range(), message[16..20].as_ptr_range());
}

#[test]
fn malformed() {
    refused(26, b"");
    refused(26, b"\0\0\0\0");
    refused(26, b"/status");
    // No tag string; one without its comma; a cut one.
    refused(26, b"/status\0");
    refused(26, b"/status\0\0\0\0\0");
    refused(26, b"/n_free\0i\0\0\0\0\0\0\x05");
    refused(26, b"/status\0,\0\0");
    // No "/", and an empty address.
    refused(26, b"status\0\0,\0\0\0");
    refused(26, b"\0\0\0\0,\0\0\0");
    // Bytes over 127.
    refused(26, b"/statu\xf3\0,\0\0\0");
    refused(26, b"/d_free\0,s\0\0\x80\0\0\0");
    // Padding that is too short, too long, or not zero.
    refused(26, b"/c_get\0,i\0\0\0\0\0\x07");
    refused(26, b"/c_get\0\0\0,i\0\0\0\0\0\x07");
    refused(26, b"/c_get\0x,i\0\0\0\0\0\x07");
    refused(26, b"/c_get\0\0,i\0x\0\0\0\x07");
    refused(26, b"/d_free\0,s\0\0a\0\0x");
    refused(26, b"/d_free\0,s\0\0four");
    refused(26, b"/d_recv\0,b\0\0\0\0\0\x01\xff\0\0x");
    refused(26, b"/d_recv\0,b\0\0\0\0\0\x01\xff\0\0");
    // Other tags.
    refused(26, b"/c_get\0\0,d\0\0\0\0\0\x07");
    refused(26, b"/c_get\0\0,I\0\0\0\0\0\x07");
    refused(26, b"/status\0,T\0\0");
    // Cut arguments, and bytes left over.
    refused(26, b"/c_get\0\0,i\0\0\0\0\0");
    refused(26, b"/c_get\0\0,i\0\0");
    refused(26, b"/c_set\0\0,if\0\0\0\0\x07\x7f\xc0\0");
    refused(26, b"/c_get\0\0,i\0\0\0\0\0\x07\0");
    refused(26, b"/status\0,\0\0\0\0\0\0\0");
    // Lengths of bytes: negative, longer than what is left, cut.
    refused(26, b"/d_recv\0,b\0\0\xff\xff\xff\xff");
    refused(26, b"/d_recv\0,b\0\0\x80\0\0\0");
    refused(26, b"/d_recv\0,b\0\0\x7f\xff\xff\xff");
    refused(26, b"/d_recv\0,b\0\0\0\0\0\x05four");
    refused(26, b"/d_recv\0,b\0\0\0\0\0\x03four");
    refused(26, b"/d_recv\0,b\0\0\0\0\0");
}

#[test]
fn no_command_has_it() {
    refused(27, b"/\0\0\0,\0\0\0");
    refused(27, b"/quit\0\0\0,\0\0\0");
    refused(27, b"/statu\0\0,\0\0\0");
    refused(27, b"/status1\0\0\0\0,\0\0\0");
    refused(27, b"/Status\0,\0\0\0");
    refused(27, b"/export\0,\0\0\0");
    refused(27, b"/\x01\x7f\0,\0\0\0");
    // Tags that are too few, too many, or of other kinds.
    refused(27, b"/c_get\0\0,\0\0\0");
    refused(27, b"/c_get\0\0,ii\0\0\0\0\x07\0\0\0\0");
    refused(27, b"/c_get\0\0,f\0\0\0\0\0\x07");
    refused(27, b"/c_get\0\0,s\0\0\0\0\0\0");
    refused(27, b"/d_recv\0,s\0\0\0\0\0\0");
    refused(27, b"/d_free\0,b\0\0\0\0\0\0");
    refused(27, b"/status\0,i\0\0\0\0\0\0");
    refused(27, b"/n_set\0\0,iff\0\0\0\0\0\0\0\x09\0\0\0\x02\0\0\0\0");
    refused(27, b"/n_set\0\0,iis\0\0\0\0\0\0\0\x09\0\0\0\x02\0\0\0\0");
    refused(27, b"/n_map\0\0,iif\0\0\0\0\0\0\0\x09\0\0\0\x02\0\0\0\0");
    // As many as no command takes.
    refused(
        27,
        b"/n_fill\0,iiiii\0\0\0\0\0\x01\0\0\0\x01\0\0\0\x01\0\0\0\x01\0\0\0\x01",
    );
}

#[test]
fn form_comes_before_address_and_tags() {
    // No such address, and: bytes left over, another tag, padding.
    refused(26, b"/quit\0\0\0,\0\0\0\0");
    refused(26, b"/quit\0\0\0,T\0\0");
    refused(26, b"/quit\0\0x,\0\0\0");
    // Tags that don't fit, of which one more is none, or whose argument is cut.
    refused(26, b"/c_get\0\0,iid\0\0\0\0\0\0\0\x07\0\0\0\0");
    refused(26, b"/c_get\0\0,ii\0\0\0\0\x07");
    refused(26, b"#bundle\0\0\0\0\0\0\0\0\x01");
}

#[test]
fn what_the_writer_refuses() {
    let write = |command: Command, room: usize| {
        let mut buffer = vec![0xa5; room];
        let answer = write_message(&command, &mut buffer);
        assert!(answer.is_ok() || buffer.iter().all(|&byte| byte == 0xa5));
        answer.map_err(|fault| fault.number)
    };
    for name in [&b"\0"[..], b"\x80", b"a\0", b"ping\xff", b"\0ping"] {
        let set = Command::Set {
            node: 0,
            key: Key::Name(name),
            value: Value::Integer(0),
        };
        let synth = Command::NewSynth {
            definition: name,
            number: 0,
            action: 0,
            target: 0,
        };
        for command in [Command::Delete(name), synth, set] {
            // Room or not: 26 comes before 24.
            assert_eq!(write(command, 100), Err(26));
            assert_eq!(write(command, 0), Err(26));
        }
    }
    assert_eq!(write(Command::Export, 100), Err(27));
    assert_eq!(write(Command::Export, 0), Err(27));
}

#[test]
fn the_longest_file() {
    // Its pages are never touched: either refusal comes before a byte is copied.
    let file = vec![0; 1 << 31];
    let write = |file: &[u8]| write_message(&Command::Receive(file), &mut [0; 100]);
    assert_eq!(write(&file), Err(fault(26)));
    assert_eq!(write(&file[1..]), Err(fault(24)));
}

#[test]
fn a_call_of_a_command_is_that_command() {
    for op in 1..=27 {
        for mark in [0, 1] {
            let call = Call::new(op, [-1, 2, 3, mark, -5], b"name");
            let command = call.command().expect("it is known");
            let again = Call::of(&command);
            assert_eq!(again.op, op);
            assert_eq!(again.command(), Some(command));
        }
    }
}
