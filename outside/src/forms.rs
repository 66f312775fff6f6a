//! The writer compared with the second program on one form, answer and every byte; and the two round trips: what
//! it wrote is read as what was typed, and what is read of a file is written to the same bytes.

use crate::calls::Calls;
use crate::difference::Difference;
use crate::lent::Lent;
use desk::raw::WriteAnswer;
use second::make::Form;
use second::write::typed;

/// The random form of this index, typed or hurt. Gives the number of its refusal, 0 if it was written.
pub fn check_form(calls: &Calls, form: &Form) -> Result<i64, Difference> {
    let answer = written(calls, &form.pieces, &form.links, &form.buffer)?;
    if answer.number == 0 {
        let mut file = form.buffer.clone();
        second::write(&form.pieces, &form.links, &mut file);
        file.truncate(answer.written());
        read_back(calls, form, &file)?;
    }
    Ok(answer.number)
}

/// The rows that a file says, if the second program reads it, make the same file. Gives 1 for such a file.
pub fn check_file(calls: &Calls, file: &[u8]) -> Result<u64, Difference> {
    let Ok(job) = second::read(file) else {
        return Ok(0);
    };
    let (pieces, links) = typed(&job);
    let mut got = vec![0xA5; file.len()];
    let answer = (calls.write)(&pieces, &links, &mut got);
    let expected = WriteAnswer { number: 0, place: 0, bytes: file.len() as i64 };
    Difference::check("writing what was read".into(), &expected, &answer)?;
    Difference::check_bytes("writing what was read", file, &got)?;
    Ok(1)
}

/// The proved writer and the second one on the same form and buffer.
fn written(
    calls: &Calls,
    pieces: &[u32],
    links: &[u32],
    buffer: &[u8],
) -> Result<WriteAnswer, Difference> {
    let call = format!("writing with a buffer of {} bytes", buffer.len());
    let (mut expected, mut got) = (buffer.to_vec(), Lent::new(buffer));
    let second::WriteAnswer { number, place, bytes } = second::write(pieces, links, &mut expected);
    let answer = WriteAnswer { number, place, bytes };
    let proved = (calls.write)(pieces, links, got.part_mut());
    Difference::check_bytes(&call, &expected, got.part())?;
    Difference::check(format!("{call}: bytes around it kept"), &true, &got.kept_around())?;
    Difference::check(call, &answer, &proved)?;
    Ok(proved)
}

/// The proved plan call reads the file that was written: it refuses it for nothing but a ring, as the second
/// program does, and what the second program reads is what was typed.
fn read_back(calls: &Calls, form: &Form, file: &[u8]) -> Result<(), Difference> {
    let job = second::read(file).map(|job| typed(&job));
    let rows = Ok((form.pieces.clone(), form.links.clone()));
    Difference::check("reading what was written".into(), &rows, &job)?;
    let expected = second::job::accept(file).err().map(|ring| (ring.number, ring.place));
    let plan = (calls.plan)(file, &mut vec![0; 48 * form.pieces.len() / 4]);
    let got = plan.refusal().map(|refusal| (refusal.number, refusal.place));
    Difference::check("planning what was written".into(), &expected, &got)
}
