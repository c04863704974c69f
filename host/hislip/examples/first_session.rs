//! One program opens a session, asks, and gets its answer: `cargo run --example first_session`.

use hislip::{type_name, Frames, MessageType, Mode, Outcome, Refusal, Server, HEADER};

/// A whole message: type, control code, parameter, payload.
fn message(kind: MessageType, code: u8, parameter: u32, payload: &[u8]) -> Vec<u8> {
    let mut bytes = vec![b'H', b'S', kind.number(), code];
    bytes.extend(parameter.to_be_bytes());
    bytes.extend((payload.len() as u64).to_be_bytes());
    bytes.extend(payload);
    bytes
}

/// What a host does with frames: each goes to its connection's socket.
fn send(frames: Frames) {
    for frame in frames {
        let (to, bytes) = (frame.connection, frame.message.len());
        println!(
            "to connection {to}: {bytes} bytes, {}",
            type_name(frame.kind)
        );
    }
}

pub fn main() -> Result<(), Refusal> {
    let mut server = Server::new(*b"AA", Mode::Synchronized);

    // Two sockets: the synchronous channel, then the asynchronous one with the SessionID.
    server.open(0)?;
    let opened = server.deliver(
        0,
        &message(MessageType::Initialize, 0, 0x0100_4141, b"hislip0"),
    )?;
    let Outcome::ActedOn { session } = opened.outcome else {
        panic!("the first session is never refused");
    };
    send(opened.frames);
    server.open(1)?;
    send(
        server
            .deliver(
                1,
                &message(MessageType::AsyncInitialize, 0, session.into(), b""),
            )?
            .frames,
    );

    // A question, in two pieces as a network may bring it: nothing is taken before all is there.
    let question = message(MessageType::DataEnd, 0, 0xffff_ff00, b"*IDN?");
    let part = server.deliver(0, &question[..HEADER + 2])?;
    println!("{} bytes: {}", HEADER + 2, part.outcome);
    let whole = server.deliver(0, &question)?;
    println!("{} bytes: {}", question.len(), whole.outcome);
    send(whole.frames);

    // It acted, so the instrument gets the payload; here is its answer.
    send(server.answer(session, b"meter", true, b"")?.frames());
    let again = server
        .answer(session, b"meter", true, b"")
        .expect_err("one answer");
    println!("a second answer: {again}");
    Ok(())
}
