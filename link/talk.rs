//! The talk of talk.c from Rust: two hubs that start, answer each other, and are shown, listed, applied and refused.
mod presence_hub;

use presence_hub::{Changes, Handled, Hub, Record, SIZE, size};

const ROOM: usize = 4096;

fn hex(bytes: &[u8]) -> String {
    if bytes.is_empty() {
        return "-".to_owned();
    }
    bytes.iter().map(|byte| format!("{byte:02x}")).collect()
}

// Hands bytes to a hub, prints how far it came, and gives its replies.
fn handle(hub: &mut Hub, bytes: &[u8]) -> Vec<u8> {
    let mut replies = vec![0; ROOM];
    let mut told = Handled::default();
    let fault = hub.handle(bytes, &mut replies, &mut told);
    println!("fault {fault} wire {} messages {} place {}", told.wire, told.messages, told.place);
    replies.truncate(told.replies);
    println!("replies {}", hex(&replies));
    replies
}

fn show(hub: &mut Hub, client: u64) {
    let mut text = [0; 256];
    let mut told = Record::default();
    print!("fault {} ", hub.show(client, &mut text, &mut told));
    match (told.held, told.live) {
        (false, _) => println!("nothing"),
        (true, false) => println!("null at {}, time {}", told.clock, told.time),
        (true, true) => println!("{} at {}, time {}", String::from_utf8_lossy(&text[..told.text]), told.clock, told.time),
    }
}

fn apply(hub: &mut Hub, update: &[u8]) {
    let mut lists = [[0; 64]; 4];
    let mut told = Changes::default();
    println!("fault {}", hub.apply(update, &mut lists, &mut told));
    let counts = [told.added, told.updated, told.changed, told.removed];
    for ((what, list), count) in ["added", "updated", "changed", "removed"].iter().zip(lists).zip(counts) {
        let words: Vec<String> = list[..count].iter().map(|client| format!(" {client}")).collect();
        println!("{what}{}", words.concat());
    }
}

fn main() {
    let mut out = [0; ROOM];
    let mut length = 0;
    let mut nowhere = Hub::within(SIZE - 1);
    let mut hubs = [Hub::within(SIZE), Hub::within(SIZE)];
    println!("size as declared {}", u8::from(size() == SIZE));
    print!("faults {} {}", nowhere.make(1, 0), nowhere.clean());
    print!(" {}", hubs[0].make(1 << 53, 0));
    println!(" {} {}", hubs[0].make(1, 1000), hubs[1].make(2, 2000));
    println!("fault {}", hubs[0].set(b"\"in a hall\""));
    handle(&mut hubs[0], b"\x00\x02\x03\x01\x05\x02");
    handle(&mut hubs[1], b"\x00\x02\x03\x01\x07\x09");
    for from in 0..2 {
        println!("fault {}", hubs[from].start(&mut out, &mut length));
        println!("start {}", hex(&out[..length]));
        let replies = handle(&mut hubs[1 - from], &out[..length]);
        handle(&mut hubs[from], &replies);
    }
    hubs[1].step1(&mut out, &mut length);
    println!("step1 {}", hex(&out[..length]));
    show(&mut hubs[1], 1);
    println!("faults {} {}", hubs[1].set_clock(2500), hubs[0].set(b"\"out\""));
    println!("fault {}", hubs[0].list(&[1], &mut out, &mut length));
    apply(&mut hubs[1], &out[..length]);
    show(&mut hubs[1], 1);
    println!("faults {} {}", hubs[1].clean(), hubs[1].remove(1));
    show(&mut hubs[1], 1);
    handle(&mut hubs[1], b"\x03\x00\x02\x02\x01\x05\x03");
    println!("fault {}", hubs[1].list(&[9], &mut out, &mut length));
}
