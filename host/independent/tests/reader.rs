//! The independent reader against the independent writer's map of the fields, in both versions.

use independent::{check, read, write, write_as, Definition, Fault, Random, Shape, Version};

#[test]
fn what_is_written_is_read_back() {
    let mut random = Random::new(1);
    for round in 0..2000 {
        let definitions = random.definitions(round % 33, &Shape::ALL);
        for version in Version::ALL {
            let file = write_as(version, &definitions);
            let size: usize = definitions.iter().map(|d| d.size_in(version)).sum();
            assert_eq!(file.bytes.len(), 10 + size);
            assert_eq!(file.fault(), None);
            assert_eq!(independent::version(&file.bytes), Ok(version));
            assert_eq!(read(&file.bytes).as_ref(), Ok(&definitions));
        }
    }
}

#[test]
fn a_cut_file_is_truncated_at_the_cut_field() {
    let mut random = Random::new(2);
    for shape in Shape::ALL {
        let definitions = random.definitions(2, &[shape]);
        for version in Version::ALL {
            let file = write_as(version, &definitions);
            for length in 0..file.bytes.len() {
                let field = file.field_at(length).expect("each byte is in a field");
                let expected = Fault::new(2, field.start);
                assert_eq!(read(&file.bytes[..length]), Err(expected));
            }
        }
    }
}

#[test]
fn a_definition_is_lengthened_to_the_byte() {
    let mut random = Random::new(3);
    for shape in Shape::ALL {
        for more in 0..9 {
            let mut definition = random.short_definition(&shape);
            let size = definition.size() + more;
            random.lengthen(&mut definition, size);
            assert_eq!(definition.size(), size);
            assert_eq!(write(&[definition]).bytes.len(), 10 + size);
        }
    }
}

/// Document 001 by hand: each of the nine fields once in two bytes, and all else as in version 2.
#[test]
fn a_version_1_file_by_hand() {
    let bytes = b"SCgf\0\0\0\x01\0\x01\x01a\
        \0\x01\x3f\x80\0\0\
        \0\x02\x43\xdc\0\0\x7f\xc0\0\x01\
        \0\x01\x04freq\0\x01\
        \0\x02\
        \x03Saw\x02\0\0\0\x01\0\0\x02\
        \x00\x01\0\x02\0\0\xff\xfe\xff\xff\0\0\0\0\0\0\
        \0\x01\x01v\0\0\0\0\x80\0\0\0";
    let definitions = read(bytes).expect("it is without fault");
    let [definition] = definitions.as_slice() else {
        panic!("{definitions:?}");
    };
    let Definition {
        name,
        constants,
        initial,
        parameters,
        units,
        variants,
    } = definition;
    assert_eq!(name, b"a");
    assert_eq!(constants, &[0x3f80_0000]);
    assert_eq!(initial, &[0x43dc_0000, 0x7fc0_0001]);
    assert_eq!(parameters, &[(b"freq".to_vec(), 1)]);
    assert_eq!(
        (units[0].class.as_slice(), units[0].rate),
        (b"Saw".as_slice(), 2)
    );
    assert_eq!((units[0].inputs.len(), &units[0].outputs), (0, &vec![2]));
    assert_eq!((units[1].rate, units[1].special), (1, -2));
    let inputs: Vec<_> = units[1].inputs.iter().map(|i| (i.unit, i.index)).collect();
    assert_eq!(inputs, [(-1, 0), (0, 0)]);
    assert_eq!(variants[0].name, b"v");
    assert_eq!(variants[0].values, [0, 0x8000_0000]);
    assert_eq!(write_as(Version::One, &definitions).bytes, bytes);
    // The same bytes as version 2 are no file, and any other version is refused.
    let mut other = bytes.to_vec();
    other[7] = 2;
    assert!(check(&other).is_err());
    for field in [0, 3, -1, 256, i32::MIN, i32::MAX, 1 << 16] {
        other[4..8].copy_from_slice(&i32::to_be_bytes(field));
        assert_eq!(check(&other), Err(Fault::new(4, 4)));
    }
}
