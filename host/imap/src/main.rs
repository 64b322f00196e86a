//! A small IMAP server. Every notice that a client gets, at once, at a command's end or in IDLE, comes out of the library's
//! queue and from nowhere else; only what happens in an open mailbox that is too large for it is told by `large`.

mod adapt;
mod addresses;
mod changes;
mod commands;
mod condstore;
mod connection;
mod date;
mod fetch;
mod flags;
mod handing;
mod history;
mod input;
mod large;
mod mime;
mod names;
mod options;
mod outgoing;
mod parse;
mod push;
mod recording;
mod search;
mod session;
mod store;
mod structure;
mod transcript;
mod writer;

use options::{Asked, Options};
use std::fs::{self, File};
use std::io::{self, Write};
use std::net::{TcpListener, TcpStream};
use std::path::Path;
use std::process::ExitCode;
use std::sync::{Arc, Mutex};
use std::thread;
use store::Store;

fn main() -> ExitCode {
    let options = match options::read(std::env::args().skip(1)) {
        Ok(Asked::Serve(options)) => options,
        Ok(Asked::Help) => {
            print!("{}", options::HELP);
            return ExitCode::SUCCESS;
        }
        Err(fault) => {
            eprintln!("imap: {fault}; see --help");
            return ExitCode::from(2);
        }
    };
    match serve(options) {
        Ok(()) => ExitCode::SUCCESS,
        Err(fault) => {
            eprintln!("imap: {fault}");
            ExitCode::FAILURE
        }
    }
}

fn serve(options: Options) -> io::Result<()> {
    push::check_library()?;
    for folder in [&options.log, &options.record].into_iter().flatten() {
        prepare(folder).map_err(|fault| about(folder, &fault))?;
    }
    let listener = TcpListener::bind((options.bind.as_str(), options.port))?;
    println!("imap: listening on {}", listener.local_addr()?);
    io::stdout().flush()?;
    let connections = options.connections;
    let store = Arc::new(Mutex::new(Store::new(options)));
    // each connection holds this as long as it lasts
    let place = Arc::new(());
    for (number, socket) in (1..).zip(listener.incoming().flatten()) {
        if Arc::strong_count(&place) > connections {
            turn_away(socket);
            continue;
        }
        let (store, place) = (store.clone(), place.clone());
        let serve = move || {
            let _place = place;
            connection::serve(socket, &store, number)
        };
        let thread = thread::Builder::new().stack_size(connection::STACK);
        if let Err(fault) = thread.spawn(serve) {
            eprintln!("imap: a connection was not taken: {fault}");
        }
    }
    Ok(())
}

/// A folder that files are to go to is made, and tried, before anybody is served.
fn prepare(folder: &Path) -> io::Result<()> {
    fs::create_dir_all(folder)?;
    let trial = folder.join("0.trial");
    File::create(&trial)?;
    fs::remove_file(&trial)
}

fn about(folder: &Path, fault: &io::Error) -> io::Error {
    let text = format!("no files can be written to {}: {fault}", folder.display());
    io::Error::new(fault.kind(), text)
}

/// There is no place left. The line finds room in a socket that nothing was written to, so this doesn't wait.
fn turn_away(mut socket: TcpStream) {
    let _ = socket.write_all(b"* BYE [LIMIT] too many connections\r\n");
}
