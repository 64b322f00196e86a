//! A client watches one folder, an alarm comes in there, and the notice goes out.
use borjavid::records::{command, create, message, Notice, LOOKUP, READ, SELECTABLE};
use borjavid::Memory;

fn main() -> Result<(), Box<dyn std::error::Error>> {
    let mut session = Memory::new(65536);
    let attributes = SELECTABLE | LOOKUP | READ;
    let records = [
        create(1, attributes, Notice::Quiet, 7, 1, b"Ops/Alarms"),
        command(b"a NOTIFY SET (mailboxes Ops/Alarms (MessageNew MessageExpunge))"),
        message(1, 5, 0, 120, 2),
    ];
    for record in records {
        session.step(&record).ok()?;
        // written out first, and drained by DR then
        session.drain_to(&mut std::io::stdout())?;
    }
    Ok(())
}
