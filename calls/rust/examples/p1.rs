//! The twin of `example.c` in the folder above: it makes the first sheet of the rules page from typed rows, plans it,
//! shows one desk's runs and block sheet, and then what refused files and forms give. Both print what
//! `example.expected` stores.

use desk::{RECORD, ROOM, ROOM_FOR_A_PIECE, Records, Refusal, Run, blocks, plan, write};

/// Three pieces, each desk, duration, release, due, and a link: piece 0 before piece 2, handover 2.
const PIECES: [[u32; 4]; 3] = [[0, 4, 0, 20], [0, 2, 1, 5], [1, 3, 0, 12]];
const LINKS: [[u32; 3]; 1] = [[0, 2, 2]];

fn main() -> Result<(), Refusal> {
    let (mut room, mut buffer) = ([0; 4 * RECORD], [0; ROOM]);
    let file = write(&PIECES, &LINKS, &mut room)?;
    println!("file: {} bytes", file.len());
    for record in file.chunks(RECORD) {
        let bytes: Vec<String> = record.iter().map(|byte| format!("{byte:02x}")).collect();
        println!("{}", bytes.join(" "));
    }
    show_plan(file, &mut buffer)?;
    show_sheet(file, &mut buffer)?;

    show_refusal("17 zero bytes", plan(&[0; 17], &mut buffer));
    let short = &mut buffer[..3 * ROOM_FOR_A_PIECE - 1];
    show_refusal("a buffer one byte short", plan(file, short));
    let on_desk_32 = [PIECES[0], [32, 2, 1, 5]];
    show_refusal("a form with desk 32", write(&on_desk_32, &[], &mut buffer));
    let short = &mut buffer[..3 * RECORD - 1];
    show_refusal("a file one byte too long", write(&PIECES, &[], short));
    Ok(())
}

fn show_plan(file: &[u8], buffer: &mut [u8]) -> Result<(), Refusal> {
    let plan = plan(file, buffer)?;
    let (pieces, runs) = (plan.pieces(), plan.runs().count());
    let (end, worst) = (plan.end(), plan.worst());
    println!("plan: {pieces} pieces, {runs} runs, end {end}, worst lateness {worst}");
    for result in plan.results() {
        println!(
            "piece {} on desk {}: {} to {}, latest {}",
            result.piece, result.desk, result.start, result.finish, result.latest,
        );
    }
    show_runs(plan.runs());

    // The runs lie in the lent buffer, whose first record is the first result, so their place there can be told.
    let of_desk = plan.runs_of(1);
    let first = of_desk.bytes().as_ptr() as usize - plan.results().bytes().as_ptr() as usize;
    println!("desk 1 has bytes {first} to {} of the plan", first + of_desk.bytes().len());
    show_runs(of_desk);
    Ok(())
}

fn show_sheet(file: &[u8], buffer: &mut [u8]) -> Result<(), Refusal> {
    let sheet = blocks(file, 0, buffer)?;
    let (blocks, runs) = (sheet.blocks().count(), sheet.runs().count());
    println!("sheet of desk 0: {blocks} blocks, {runs} runs, worst lateness {}", sheet.worst());
    for block in sheet.blocks() {
        println!(
            "block on desk {}: {} pieces, {} to {}",
            block.desk, block.pieces, block.from, block.end,
        );
    }
    show_runs(sheet.runs());
    Ok(())
}

fn show_runs(runs: Records<Run>) {
    for Run { desk, piece, from, until } in runs {
        println!("run on desk {desk}: piece {piece}, {from} to {until}");
    }
}

fn show_refusal<T>(what: &str, answer: Result<T, Refusal>) {
    if let Err(Refusal { fault, place }) = answer {
        println!("{what}: refused {} at {place}", fault.number());
    }
}
