//! Alice acts, bob watches.

use super::{Client, Server};

/// What marks the end of all that bob heard so far.
const FENCE: &str = "Shared/Fence";

/// The notice of a mailbox that is there.
pub fn there(name: &str) -> String {
    format!("* LIST () \"/\" \"{name}\"")
}

/// The notice of a name that is gone, that never was, or that the watcher may not list.
pub fn absent(name: &str) -> String {
    format!("* LIST (\\NonExistent) \"/\" \"{name}\"")
}

pub struct Watch {
    pub server: Server,
    pub alice: Client,
    pub bob: Client,
}

impl Watch {
    /// Bob may do all with Shared/Open, which has so many messages.
    pub fn new(messages: usize, options: &[&str]) -> Watch {
        let server = Server::with(options);
        let mut alice = server.log_in("alice");
        for (name, rights) in [("Shared/Open", "lrswite"), (FENCE, "lr")] {
            alice.ok(&format!("CREATE {name}"));
            alice.ok(&format!("SETACL {name} bob {rights}"));
        }
        alice.append_many((0..messages).map(|_| "Shared/Open".to_string()));
        let bob = server.log_in("bob");
        Watch { server, alice, bob }
    }

    /// A NOTIFY of bob's with these groups, and the fence's.
    pub fn notify(&mut self, groups: &str) -> Vec<String> {
        let fence = format!("(mailboxes {FENCE} (MessageNew MessageExpunge))");
        self.bob.ok(&format!("NOTIFY SET {groups} {fence}"))
    }

    /// All that bob was told by now without asking. What was told earlier stands before the fence, as lines keep their order.
    pub fn heard(&mut self) -> Vec<String> {
        self.alice.append(FENCE);
        let mut lines = self.bob.until(&format!("* STATUS \"{FENCE}\""));
        lines.pop();
        lines
    }

    pub fn end(self) {
        self.server.end();
    }
}
