//! The number of locks granted stays at its limit, which no list can reach.

use crate::compose::header;
use crate::event::Row;
use crate::limits::GRANTS;
use crate::Server;

const BEFORE_FIRST: u32 = 0xffff_fefe;

/// A session on connections 0 and 1.
fn with_session() -> Server {
    let mut server = Server::new(0x4141);
    server.open(0).expect("not open");
    server.open(1).expect("not open");
    deliver(&mut server, 0, &header(0, 0, 0x0100_0000, 0));
    deliver(&mut server, 1, &header(17, 0, 1, 0));
    server
}

fn deliver(server: &mut Server, connection: u32, bytes: &[u8]) {
    let delivered = server.deliver(connection, bytes, &mut [0; 2048]);
    assert_eq!(delivered.expect("open").taken, bytes.len());
}

#[test]
fn the_number_of_locks_granted_stays_at_its_limit() {
    let mut server = with_session();
    for (before, after) in [(2, 1), (1, 0), (0, 0)] {
        server.session_mut(0).grants = GRANTS - before;
        deliver(&mut server, 1, &header(4, 1, 0, 0));
        let mut rows = [Row::default()];
        assert_eq!(server.holders(&mut rows), Ok(1));
        assert_eq!(rows[0].grants, GRANTS - after);
        deliver(&mut server, 1, &header(4, 0, BEFORE_FIRST, 0));
        assert_eq!(server.holders(&mut []), Ok(0));
    }
}
