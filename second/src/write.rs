//! The writer of job files: what the order desk typed, a row of four numbers for a piece and of three for a
//! link, judged row by row and then laid into records. The faults stand in one table for each kind of row,
//! in the order of judgement.

use crate::job::{Job, Refusal, MOST_LINKS, MOST_PIECES};

/// The answer of the writer; a refused one has nothing but its number and place.
#[derive(Clone, Copy, Debug, Default, PartialEq, Eq)]
pub struct WriteAnswer {
    pub number: i64,
    pub place: i64,
    pub bytes: i64,
}

/// Makes the job file at the front of the buffer; the bytes behind it stay, and all do at a refusal.
pub fn write(pieces: &[u32], links: &[u32], buffer: &mut [u8]) -> WriteAnswer {
    let made = made(pieces, links).and_then(|file| match buffer.get_mut(..file.len()) {
        Some(front) => {
            front.copy_from_slice(&file);
            Ok(file.len() as i64)
        }
        None => Err(Refusal { number: 14, place: 0 }),
    });
    match made {
        Ok(bytes) => WriteAnswer { bytes, ..WriteAnswer::default() },
        Err(Refusal { number, place }) => WriteAnswer { number, place, bytes: 0 },
    }
}

/// The file of the rows, or the first refusal: rows in file order, then numbers left behind the whole rows.
fn made(pieces: &[u32], links: &[u32]) -> Result<Vec<u8>, Refusal> {
    let mut file = Vec::new();
    let mut place = 0;
    let (piece_rows, link_rows) = (pieces.chunks_exact(4), links.chunks_exact(3));
    let cut_short = !piece_rows.remainder().is_empty() || !link_rows.remainder().is_empty();
    let count = piece_rows.len() as u64;
    for row in piece_rows {
        let (desk, duration, release, due) = (row[0], row[1], row[2], row[3]);
        refuse(
            place,
            &[
                (4, place as usize >= MOST_PIECES),
                (5, desk > 31),
                (6, duration == 0 || duration > 960),
                (7, release > 40_000 || due > 40_000),
            ],
        )?;
        file.extend([1, desk as u8]);
        file.extend((duration as u16).to_le_bytes());
        file.extend(release.to_le_bytes());
        file.extend(due.to_le_bytes());
        file.extend([0; 4]);
        place += 1;
    }
    for (number, row) in link_rows.enumerate() {
        let (before, after, handover) = (row[0], row[1], row[2]);
        refuse(
            place,
            &[
                (4, number >= MOST_LINKS),
                (9, u64::from(before) >= count || u64::from(after) >= count),
                (10, handover > 480),
            ],
        )?;
        file.extend([2, 0]);
        for field in [before, after, handover] {
            file.extend((field as u16).to_le_bytes());
        }
        file.extend([0; 8]);
        place += 1;
    }
    refuse(place, &[(1, cut_short)])?;
    Ok(file)
}

/// The first fault that was found, at this place.
fn refuse(place: i64, faults: &[(i64, bool)]) -> Result<(), Refusal> {
    match faults.iter().find(|(_, found)| *found) {
        Some(&(number, _)) => Err(Refusal { number, place }),
        None => Ok(()),
    }
}

/// A job as it would be typed: the rows of its pieces and of its links.
pub fn typed(job: &Job) -> (Vec<u32>, Vec<u32>) {
    let pieces = job.pieces.iter().flat_map(|piece| {
        [u32::from(piece.desk), piece.duration as u32, piece.release as u32, piece.due as u32]
    });
    let links = job.links.iter();
    let links =
        links.flat_map(|link| [link.before as u32, link.after as u32, link.handover as u32]);
    (pieces.collect(), links.collect())
}
