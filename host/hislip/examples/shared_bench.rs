//! Two programs share the instrument: one holds the lock, the other waits and is held:
//! `cargo run --example shared_bench`.

use hislip::{type_name, Frames, MessageType, Mode, Outcome, Refusal, Server};

/// Timeout of a lock request, in milliseconds.
const PATIENCE: u32 = 500;
const REQUEST: u8 = 1;
const RELEASE: u8 = 0;
/// What a release names before the first message.
const BEFORE_FIRST: u32 = 0xffff_fefe;

fn message(kind: MessageType, code: u8, parameter: u32, payload: &[u8]) -> Vec<u8> {
    let mut bytes = vec![b'H', b'S', kind.number(), code];
    bytes.extend(parameter.to_be_bytes());
    bytes.extend((payload.len() as u64).to_be_bytes());
    bytes.extend(payload);
    bytes
}

fn send(frames: Frames) {
    for frame in frames {
        let (to, name) = (frame.connection, type_name(frame.kind));
        println!("    to connection {to}: {name}, code {}", frame.code);
    }
}

/// Delivers one message and says what became of it.
fn deliver(server: &mut Server, connection: u32, bytes: &[u8]) -> Result<Outcome, Refusal> {
    let delivery = server.deliver(connection, bytes)?;
    println!(
        "{} on {connection}: {}",
        type_name(bytes[2]),
        delivery.outcome
    );
    send(delivery.frames);
    Ok(delivery.outcome)
}

/// A session on two connections.
fn join(server: &mut Server, synchronous: u32) -> Result<(), Refusal> {
    server.open(synchronous)?;
    let opened = deliver(
        server,
        synchronous,
        &message(MessageType::Initialize, 0, 0x0100_4141, b""),
    )?;
    if let Outcome::ActedOn { session } = opened {
        server.open(synchronous + 1)?;
        deliver(
            server,
            synchronous + 1,
            &message(MessageType::AsyncInitialize, 0, session.into(), b""),
        )?;
    }
    Ok(())
}

pub fn main() -> Result<(), Refusal> {
    let mut server = Server::new(*b"AA", Mode::Synchronized);
    join(&mut server, 0)?;
    join(&mut server, 2)?;

    // A takes the exclusive lock; B's request waits, and B's Data is held.
    deliver(
        &mut server,
        1,
        &message(MessageType::AsyncLock, REQUEST, 0, b""),
    )?;
    deliver(
        &mut server,
        3,
        &message(MessageType::AsyncLock, REQUEST, PATIENCE, b""),
    )?;
    let data = message(MessageType::Data, 0, 0xffff_ff00, b"CONFigure:VOLTage:DC");
    let held = deliver(&mut server, 2, &data)?;
    assert_eq!(held, Outcome::Held);

    // Time passes, but not enough of it. A has sent no message, and its release says so. It grants B,
    // and B's Data, shown again, acts.
    send(server.clock(u64::from(PATIENCE) - 1)?);
    deliver(
        &mut server,
        1,
        &message(MessageType::AsyncLock, RELEASE, BEFORE_FIRST, b""),
    )?;
    let acted = deliver(&mut server, 2, &data)?;
    assert_eq!(acted, Outcome::ActedOn { session: 2.into() });

    // A cable drops, and what it held with it.
    println!("cut 2");
    send(server.cut(2)?);
    Ok(())
}
