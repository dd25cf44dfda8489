//! Lets two machines read and play the same scripts, and compares the answers, every number read and every byte printed,
//! and what lies around the lent lists. A script is any bytes; it lies between line ends, which no machine may look at.

use crate::driver::{Difference, Driver, Guarded, Library, GUARD};
use crate::generate::{any_text, good, of_length, of_waits, put_change, FLAWS};
use crate::library::{Numbers, Printed};
use crate::random::Random;
use crate::script::MOST_BYTES;

/// What reading and playing a script give back and leave behind.
#[derive(PartialEq)]
pub struct Reading {
    pub answer: u64,
    pub numbers: Guarded<u32>,
    pub length: u64,
    pub printed: Guarded<u8>,
    script: Guarded<u8>,
}

/// What the lent lists hold before: nothing that a script could ask for.
const FOUND: u32 = 0xdead_0004;
const FOUND_BYTE: u8 = 0xde;

pub fn reading(library: &Library, script: &[u8]) -> Reading {
    let script = Guarded::new(script, [b'\n'; 2]);
    let mut numbers = Guarded::new(&[FOUND; std::mem::size_of::<Numbers>() / 4], GUARD);
    let mut printed = Guarded::new(&[FOUND_BYTE; std::mem::size_of::<Printed>()], [FOUND_BYTE; 2]);
    let answer = (library.read)(script.words(), numbers.lend().try_into().expect("as many as are lent"));
    let length = (library.play)(script.words(), printed.lend().try_into().expect("as many as are lent"));
    Reading { answer, numbers, length, printed, script }
}

/// How many scripts are made of a good one by a change of one byte, and how many of any text there are beside it.
const CHANGED: u32 = 8;
const ANY_TEXT: u32 = 40;

impl Driver {
    pub fn reads_alike(&self, script: &[u8]) -> bool {
        reading(&self.ours, script) == reading(&self.theirs, script)
    }

    fn compare_script(&mut self, script: Vec<u8>) -> Result<(), Difference> {
        if !self.reads_alike(&script) {
            return Err(Difference::Script(script));
        }
        // it was read and it was played
        self.agreed += 2;
        Ok(())
    }

    /// A script as long as may be, and one that prints as much as may be; a good one, the same with each flaw and with a byte
    /// changed; others of any text.
    pub fn scripts(&mut self, random: &mut Random) -> Result<(), Difference> {
        self.compare_script(of_length(random, MOST_BYTES))?;
        self.compare_script(of_waits(random))?;
        let script = good(random);
        for (_, put_flaw) in FLAWS {
            let mut flawed = script.clone();
            put_flaw(random, &mut flawed);
            self.compare_script(flawed)?;
        }
        for _ in 0..CHANGED {
            let mut changed = script.clone();
            put_change(random, &mut changed);
            self.compare_script(changed)?;
        }
        for _ in 0..ANY_TEXT {
            self.compare_script(any_text(random))?;
        }
        self.compare_script(script)
    }
}
