//! All calls on one file, compared with the second planner: answers and every byte of the buffers, also the
//! marked ones behind the records and those around the lent parts.

use crate::calls::{Calls, Text};
use crate::difference::Difference;
use crate::expected::Expected;
use crate::forms::{check_file, check_form};
use crate::lent::Lent;
use desk::LISTING_ROOM;
use second::make::{Case, Form};

/// What a comparison without a difference has looked at.
#[derive(Clone, Copy, Debug, Default, PartialEq, Eq)]
pub struct Seen {
    /// The refusal of the file alone, 0 if it is accepted.
    pub number: i64,
    pub pieces: usize,
    pub links: usize,
    /// Block sheets with blocks, and stretches of runs that are not empty.
    pub sheets: u64,
    pub stretches: u64,
    /// 1 for a file that was read and written again.
    pub rewritten: u64,
}

pub struct Comparison {
    calls: Calls,
    /// Too long to be made anew for each file.
    text: Box<Text>,
}

impl Comparison {
    pub fn new(calls: Calls) -> Comparison {
        let text = vec![0xA5; LISTING_ROOM].into_boxed_slice();
        Comparison { calls, text: text.try_into().expect("as long as the room") }
    }

    /// All calls on the file of this case, and the runs call on bytes that no plan wrote.
    pub fn check(&mut self, case: &Case, records: &(Vec<u8>, u8)) -> Result<Seen, Difference> {
        let expected = Expected::of(&case.file);
        let (pieces, links) = expected.size();
        let mut seen = Seen { number: expected.number(), pieces, links, ..Seen::default() };
        let file = Lent::new(&case.file);
        let (enough, marked) = (48 * pieces, vec![0xA5; 48 * pieces]);
        // A buffer too short has its say, and then the plan behind the refusal is looked at as well.
        let short = (case.buffer.len() < enough).then_some(&case.buffer);
        if let Some(buffer) = short {
            self.plan(&expected, &file, buffer)?;
            self.sheet(&expected, &file, case.desk, buffer)?;
        }
        let buffer = if short.is_some() { &marked } else { &case.buffer };
        let written = self.plan(&expected, &file, buffer)?;
        for desk in 0..=u8::MAX {
            seen.stretches += self.runs(&written, desk)?;
        }
        for desk in desks(&expected, case.desk) {
            seen.sheets += self.sheet(&expected, &file, desk, buffer)?;
        }
        self.runs(&records.0, records.1)?;
        self.listing(&file)?;
        seen.rewritten = check_file(&self.calls, &case.file)?;
        Difference::check_bytes("the file itself", &case.file, file.part())?;
        Ok(seen)
    }

    /// The writer on a form. Gives the number of the refusal, 0 if a file was written.
    pub fn check_form(&self, form: &Form) -> Result<i64, Difference> {
        check_form(&self.calls, form)
    }

    /// Gives the records of the plan.
    fn plan(&self, by: &Expected, file: &Lent, buffer: &[u8]) -> Result<Vec<u8>, Difference> {
        let call = format!("plan with a buffer of {} bytes", buffer.len());
        let (mut expected, mut got) = (buffer.to_vec(), Lent::new(buffer));
        let answer = by.plan(&mut expected);
        let proved = (self.calls.plan)(file.part(), got.part_mut());
        Difference::check_bytes(&call, &expected, got.part())?;
        Difference::check(format!("{call}: bytes around it kept"), &true, &got.kept_around())?;
        Difference::check(call, &answer, &proved)?;
        expected.truncate(answer.written());
        Ok(expected)
    }

    /// Gives 1 for a sheet with blocks.
    fn sheet(
        &self,
        by: &Expected,
        file: &Lent,
        desk: u8,
        buffer: &[u8],
    ) -> Result<u64, Difference> {
        let call = format!("block sheet of desk {desk} with a buffer of {} bytes", buffer.len());
        let (mut expected, mut got) = (buffer.to_vec(), Lent::new(buffer));
        let answer = by.blocks(desk, &mut expected);
        let proved = (self.calls.blocks)(file.part(), desk, got.part_mut());
        Difference::check_bytes(&call, &expected, got.part())?;
        Difference::check(format!("{call}: bytes around it kept"), &true, &got.kept_around())?;
        Difference::check(call, &answer, &proved)?;
        Ok(u64::from(answer.blocks > 0))
    }

    /// Gives 1 for a stretch that is not empty.
    fn runs(&self, records: &[u8], desk: u8) -> Result<u64, Difference> {
        let stretch = second::runs(records, desk);
        let part = (self.calls.runs)(records, desk);
        let first = (part.as_ptr() as usize).wrapping_sub(records.as_ptr() as usize) as u64;
        let got = (first, first.wrapping_add(part.len() as u64));
        if stretch != got {
            let call = format!("runs of desk {desk} in {}", crate::difference::hex(records));
            Difference::check(call, &stretch, &got)?;
        }
        Ok(u64::from(stretch.0 < stretch.1))
    }

    fn listing(&mut self, file: &Lent) -> Result<(), Difference> {
        let expected = second::listing(file.part());
        let got = (self.calls.listing)(file.part(), &mut self.text);
        if expected == got {
            return Ok(());
        }
        let text = |bytes: &[u8]| format!("\n{}", String::from_utf8_lossy(bytes));
        Err(Difference { call: "listing".into(), expected: text(&expected), got: text(got) })
    }
}

/// Every desk with pieces, the first without, the last, and some above it; the one of the case too.
fn desks(expected: &Expected, of_case: u8) -> Vec<u8> {
    let without = (0..32).find(|&desk| !expected.has_pieces(desk));
    let with = (0..32).filter(|&desk| expected.has_pieces(desk));
    let mut desks: Vec<u8> = with.chain(without).chain([31, 32, 255, of_case]).collect();
    desks.sort_unstable();
    desks.dedup();
    desks
}
