//! The host of alarm.rs once more, on memory of its own: whoever lends it asks first whether the library keeps it the same way.
use borjavid::records::{command, create, message, Notice, LOOKUP, READ, SELECTABLE};
use borjavid::{check_layout, Counts, Lent, Mailbox, Session};

fn main() -> Result<(), Box<dyn std::error::Error>> {
    // the sentence is for people, so it is not left to `main`
    if let Err(wrong) = check_layout() {
        eprintln!("lent: {wrong}");
        std::process::exit(1);
    }
    let (mut rows, mut words, mut queue) = ([Mailbox::EMPTY; 64], [0; 6 * 1024], [0; 65536]);
    let (mut counts, mut session) = (Counts::default(), Session::EMPTY);
    let mut lent = Lent {
        rows: &mut rows,
        words: &mut words,
        counts: &mut counts,
        session: &mut session,
        queue: &mut queue,
    };
    let attributes = SELECTABLE | LOOKUP | READ;
    for record in [
        create(1, attributes, Notice::Quiet, 7, 1, b"Ops/Alarms"),
        command(b"a NOTIFY SET (mailboxes Ops/Alarms (MessageNew MessageExpunge))"),
        message(1, 5, 0, 120, 2),
    ] {
        lent.step(&record).ok()?;
        // written out first, and drained by DR then
        lent.drain_to(&mut std::io::stdout())?;
    }
    Ok(())
}
