//! The ring check by Kahn's rule: pieces that wait for nothing are taken out one by one, and what is left
//! over has a ring. The order in which they are taken out serves the latest and the raised ready moments.

use super::links::Links;

/// Puts all pieces in an order, each behind the pieces before it; or gives the lowest piece on a ring.
pub fn order(pieces: usize, links: &Links, order: &mut [u8; 256]) -> Result<(), u8> {
    let mut waits = links.into;
    let mut count = 0;
    for (piece, _) in waits[..pieces].iter().enumerate().filter(|(_, &waiting)| waiting == 0) {
        order[count] = piece as u8;
        count += 1;
    }
    let mut done = 0;
    while done < count {
        for follower in links.from(order[done]) {
            let waiting = &mut waits[usize::from(follower.piece)];
            *waiting -= 1;
            if *waiting == 0 {
                order[count] = follower.piece;
                count += 1;
            }
        }
        done += 1;
    }
    if count == pieces {
        return Ok(());
    }
    // Pieces behind a ring are left over too, so each is asked whether it leads back to itself.
    let mut left = (0..pieces).filter(|&piece| waits[piece] > 0).map(|piece| piece as u8);
    let lowest = left.find(|&piece| leads_back(piece, links));
    Err(lowest.expect("what is left over has a ring"))
}

fn leads_back(piece: u8, links: &Links) -> bool {
    let mut met = [false; 256];
    let mut to_follow = [0; 257];
    to_follow[0] = piece;
    let mut count = 1;
    while count > 0 {
        count -= 1;
        for follower in links.from(to_follow[count]) {
            if follower.piece == piece {
                return true;
            }
            let met = &mut met[usize::from(follower.piece)];
            if !*met {
                *met = true;
                to_follow[count] = follower.piece;
                count += 1;
            }
        }
    }
    false
}
