//! Damage to a grants file, field by field with the check made right again: every cause of 11 and 13 that a block can have.

use crate::oracle::file::{number_at, put_number, seal, BLOCK, CHECK, FIRST_RECORD, HEAD_END, OLDER_MARK, RECORD};
use crate::oracle::judge::records_end;
use crate::oracle::wrong::Wrong;

/// Bytes put into a block, whose check is then made right, or left as it was.
#[derive(Clone)]
pub struct Put {
    pub block: usize,
    pub at: usize,
    pub bytes: Vec<u8>,
    pub sealed: bool,
}

pub fn damaged(file: &[u8], puts: &[Put]) -> Vec<u8> {
    let mut file = file.to_vec();
    for put in puts {
        let block = &mut file[BLOCK * put.block..][..BLOCK];
        block[put.at..][..put.bytes.len()].copy_from_slice(&put.bytes);
        if put.sealed {
            seal(block, Wrong::Nothing);
        }
    }
    file
}

/// One value after the other, each put at its own place.
struct Puts<'a> {
    file: &'a [u8],
    block: usize,
    puts: Vec<Put>,
}

impl Puts<'_> {
    fn numbers(&mut self, at: usize, numbers: &[u16]) {
        numbers.iter().for_each(|number| self.put(at, &number.to_be_bytes()));
    }

    fn bytes(&mut self, at: usize, bytes: &[u8]) {
        bytes.iter().for_each(|byte| self.put(at, &[*byte]));
    }

    fn spans(&mut self, at: usize, spans: &[(u16, u16)]) {
        spans.iter().for_each(|span| self.put(at, &[span.0.to_be_bytes(), span.1.to_be_bytes()].concat()));
    }

    fn put(&mut self, at: usize, bytes: &[u8]) {
        self.puts.push(Put { block: self.block, at, bytes: bytes.to_vec(), sealed: true });
    }

    fn number(&self, at: usize) -> u16 {
        number_at(&self.file[BLOCK * self.block..], at)
    }

    /// Mark, block number, and bytes of the fill from `fill` on.
    fn frame(&mut self, fill: usize) {
        for at in 0..4 {
            let byte = self.file[at];
            self.bytes(at, &[byte ^ 1, byte ^ 0x80, 0]);
        }
        self.put(0, &OLDER_MARK);
        let i = self.block as u16;
        self.numbers(4, &[i.wrapping_sub(1), i + 1, i + 256, 65535]);
        for at in [fill, fill + 1, (fill + CHECK) / 2, CHECK - 2, CHECK - 1] {
            self.bytes(at, &[1, 255]);
        }
    }

    /// n, and the doors: reversed, and others that some records don't touch.
    fn head(&mut self) {
        let n = self.number(6);
        self.numbers(6, &[0, 1, n.wrapping_sub(1), n.wrapping_add(1), n.wrapping_add(31), n.wrapping_sub(31), 2048, 2049, 65535]);
        let (from, to) = (self.number(8), self.number(10));
        self.spans(
            8,
            &[(to, from), (to.wrapping_add(1), to), (65535, 0), (0, 0), (65535, 65535), (0, from), (to, 65535), (0, 65535)],
        );
    }

    fn record_count(&mut self) {
        let count = self.number(6);
        self.numbers(6, &[0, 1, 30, 31, 32, count.wrapping_sub(1), count + 1, count + 256, 65535]);
        for fewer in [0, 1, count / 2, count - 1] {
            self.records_dropped(fewer);
        }
    }

    /// A block of fewer records whose fill is right: wrong by its count alone.
    fn records_dropped(&mut self, count: u16) {
        let mut block = self.file[BLOCK * self.block..][..CHECK].to_vec();
        put_number(&mut block, 6, count);
        block[records_end(count.into())..].fill(0);
        self.put(0, &block);
    }

    /// A record: its number against its neighbours, kind, spans, quarters that cover one or none, doors that touch or just don't.
    fn record(&mut self, i: usize, doors: (u16, u16)) {
        let at = FIRST_RECORD + RECORD * i;
        let number = self.number(at);
        let before = match (i, self.block) {
            (0, 1) => 0,
            (0, _) => number_at(&self.file[BLOCK * (self.block - 1)..], FIRST_RECORD + RECORD * 30),
            _ => self.number(at - RECORD),
        };
        self.numbers(at, &[0, before, before.wrapping_sub(1), before.wrapping_add(1), number.wrapping_add(1), 65535]);
        self.bytes(at + 2, &[0, 255]);
        self.bytes(at + 3, &[0, 1, 2, 3, 128, 255]);
        for field in [at + 4, at + 8, at + 12] {
            let (from, to) = (self.number(field), self.number(field + 2));
            self.spans(field, &[(to.wrapping_add(1), to), (from, from.wrapping_sub(1)), (65535, 0), (1, 0), (65535, 65534)]);
        }
        let (from, to) = (self.number(at + 12), self.number(at + 14));
        self.spans(at + 12, &[(from, from), (to, to), (0, 0), (65535, 65535), (0, 1), (65534, 65535), (0, 65535)]);
        let (below, above) = (doors.0.wrapping_sub(1), doors.1.wrapping_add(1));
        self.spans(
            at + 8,
            &[(0, below), (above, 65535), (0, doors.0), (doors.1, 65535), (below, above), (below, below), (above, above)],
        );
        self.wide(at, doors);
    }

    /// A record's rank and doors at the bound where the rank gets too low, the doors from the file's on or just ending with them.
    fn wide(&mut self, at: usize, doors: (u16, u16)) {
        let kind = self.file[BLOCK * self.block + at + 3];
        for apart in [999, 1000] {
            let from_first = (doors.0, doors.0.saturating_add(apart));
            let to_last = (doors.1.saturating_sub(apart), doors.1);
            for (rank, span) in [(199, from_first), (200, from_first), (199, to_last), (200, to_last)] {
                let staff = &self.file[BLOCK * self.block + at + 4..][..4];
                let bytes = [&[rank, kind], staff, &span.0.to_be_bytes(), &span.1.to_be_bytes()].concat();
                self.put(at + 2, &bytes);
            }
        }
    }
}

/// The field damage of one block.
pub fn block_damage(file: &[u8], block: usize) -> Vec<Put> {
    let mut puts = Puts { file, block, puts: Vec::new() };
    if block == 0 {
        puts.frame(HEAD_END);
        puts.head();
        return puts.puts;
    }
    let count = usize::from(puts.number(6));
    puts.frame(records_end(count));
    puts.record_count();
    let doors = (number_at(file, 8), number_at(file, 10));
    for i in [0, count / 2, count - 1] {
        puts.record(i, doors);
    }
    puts.puts
}
