//! The version 2 twin of a version 1 file: the same fields in the same order, each number widened with
//! its sign. It is copied field by field, without the reader's walk and without the writer. Of a refused
//! file the fields up to the one at fault are widened, that one too unless it is cut, and what follows
//! stays as it is; where the fault is a definition's (9, 10), the whole definition is widened.

use crate::{check, Fault, Version};

/// A file's twin, and why it is to be refused.
#[derive(Clone, Debug, PartialEq, Eq)]
pub struct Twin {
    pub bytes: Vec<u8>,
    /// The file's own fault, at the place where it lies in the twin.
    pub fault: Option<Fault>,
}

/// The twin of a version 1 file. A file that does not begin as one is its own twin.
pub fn twin(file: &[u8]) -> Twin {
    let fault = check(file).err();
    let header = [b"SCgf".as_slice(), &Version::One.field().to_be_bytes()].concat();
    let Some(rest) = file.strip_prefix(header.as_slice()) else {
        let bytes = file.to_vec();
        return Twin { bytes, fault };
    };
    let place = fault.map_or(usize::MAX, |fault| fault.place as usize);
    let mut copier = Copier {
        length: file.len(),
        rest,
        out: [b"SCgf".as_slice(), &Version::Two.field().to_be_bytes()].concat(),
        fault: place,
        last: match fault {
            Some(Fault { number: 9 | 10, .. }) => usize::MAX,
            _ => place,
        },
        shift: 0,
    };
    // Where it ends before the file does, there is a fault.
    let _ = copier.definitions();
    copier.measure();
    let mut bytes = copier.out;
    bytes.extend_from_slice(copier.rest);
    let fault = fault.map(|fault| Fault::new(fault.number, place + copier.shift));
    Twin { bytes, fault }
}

struct Copier<'a> {
    /// The file's length, and what is not yet copied.
    length: usize,
    rest: &'a [u8],
    out: Vec<u8>,
    /// The place of the fault, and the last at which a field is copied.
    fault: usize,
    last: usize,
    /// How much further back the fault lies in the twin, by what is copied so far.
    shift: usize,
}

impl<'a> Copier<'a> {
    fn place(&self) -> usize {
        self.length - self.rest.len()
    }

    fn measure(&mut self) {
        if self.place() <= self.fault {
            self.shift = self.out.len() - self.place();
        }
    }

    /// So many bytes of the file, if they are there and the fault does not lie before them.
    fn take(&mut self, count: usize) -> Option<&'a [u8]> {
        self.measure();
        if self.place() > self.last {
            return None;
        }
        let (bytes, rest) = self.rest.split_at_checked(count)?;
        self.rest = rest;
        Some(bytes)
    }

    /// Bytes that both versions write alike.
    fn same(&mut self, count: usize) -> Option<&'a [u8]> {
        let bytes = self.take(count)?;
        self.out.extend_from_slice(bytes);
        Some(bytes)
    }

    fn name(&mut self) -> Option<()> {
        let length = usize::from(*self.rest.first()?);
        self.same(1 + length).map(|_| ())
    }

    /// A count that is an int16 in both.
    fn short_count(&mut self) -> Option<usize> {
        let bytes = self.same(2)?.try_into().ok()?;
        usize::try_from(i16::from_be_bytes(bytes)).ok()
    }

    fn number(&mut self) -> Option<i32> {
        let bytes = self.take(2)?.try_into().ok()?;
        let number = i32::from(i16::from_be_bytes(bytes));
        self.out.extend_from_slice(&number.to_be_bytes());
        Some(number)
    }

    fn count(&mut self) -> Option<usize> {
        usize::try_from(self.number()?).ok()
    }

    fn definitions(&mut self) -> Option<()> {
        for _ in 0..self.short_count()? {
            let start = self.place();
            self.definition()?;
            if start == self.fault {
                return None;
            }
        }
        Some(())
    }

    fn definition(&mut self) -> Option<()> {
        self.name()?;
        let constants = self.count()?;
        self.same(4 * constants)?;
        let parameters = self.count()?;
        self.same(4 * parameters)?;
        for _ in 0..self.count()? {
            self.name()?;
            self.number()?;
        }
        for _ in 0..self.count()? {
            self.unit()?;
        }
        for _ in 0..self.short_count()? {
            self.name()?;
            self.same(4 * parameters)?;
        }
        Some(())
    }

    fn unit(&mut self) -> Option<()> {
        self.name()?;
        self.same(1)?;
        let inputs = self.count()?;
        let outputs = self.count()?;
        self.same(2)?;
        for _ in 0..inputs {
            self.number()?;
            self.number()?;
        }
        self.same(outputs).map(|_| ())
    }
}
