//! The bytes that both sides are fed.

/// Other clients begin here, past the own one.
const FIRST: u64 = 1000;

fn put_number(out: &mut Vec<u8>, mut number: u64) {
    while number > 127 {
        out.push(number as u8 | 128);
        number >>= 7;
    }
    out.push(number as u8);
}

fn put_buf(out: &mut Vec<u8>, bytes: &[u8]) {
    put_number(out, bytes.len() as u64);
    out.extend_from_slice(bytes);
}

/// A text of so many bytes that differs from clock to clock.
fn text(length: usize, clock: u64) -> Vec<u8> {
    let letter = b'a' + (clock % 26) as u8;
    let mut text = vec![letter; length];
    text[0] = b'"';
    text[length - 1] = b'"';
    text
}

/// A presence update with one entry for each of these clients, at a clock.
pub fn presence(clients: std::ops::Range<u64>, clock: u64, length: usize) -> Vec<u8> {
    let mut out = Vec::new();
    put_number(&mut out, clients.end - clients.start);
    for client in clients {
        put_number(&mut out, FIRST + client);
        put_number(&mut out, clock);
        put_buf(&mut out, &text(length, clock));
    }
    out
}

/// An awareness message with one entry.
pub fn awareness(client: u64, clock: u64, length: usize) -> Vec<u8> {
    let mut out = vec![1];
    put_buf(&mut out, &presence(client..client + 1, clock, length));
    out
}

/// An update message of the count board with one count.
pub fn board(client: u64, count: u64) -> Vec<u8> {
    let mut update = vec![1];
    put_number(&mut update, FIRST + client);
    put_number(&mut update, count);
    let mut out = vec![0, 2];
    put_buf(&mut out, &update);
    out
}

/// A query.
pub fn query() -> Vec<u8> {
    vec![3]
}
