//! Who holds which lock, in the words of the gateway's log.

use reference::lock_view::LockView;

/// `no locks`, or who holds, who waits and whose release stands.
pub fn describe(view: &LockView) -> String {
    let mut parts = Vec::new();
    for entry in &view.sessions {
        let session = entry.session;
        if entry.exclusive {
            parts.push(format!("{session} exclusive"));
        }
        if let Some(string) = &entry.shared {
            parts.push(format!("{session} shared \"{}\"", string.escape_ascii()));
        }
        if view
            .waiting
            .iter()
            .any(|request| request.session == session)
        {
            parts.push(format!("{session} waits"));
        }
        if let Some(standing) = &entry.standing {
            let number = standing.number;
            parts.push(format!("{session} release stands for {number:08x}"));
        }
    }
    match parts.is_empty() {
        true => "no locks".into(),
        false => format!("locks: {}", parts.join(", ")),
    }
}
