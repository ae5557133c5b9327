//! What is known of the Rust beforehand: examples whose answers follow from the public description of the protocol.
use beside_rust::call::Call;
use beside_rust::memory::Bounded;
use beside_rust::oracle::Oracle;

#[global_allocator]
static MEMORY: Bounded = Bounded;

/// Asks the calls in turn, each with its answer and mark.
fn asks(pairs: &[(&str, &str)]) {
    let mut oracle = Oracle::default();
    for (call, wanted) in pairs {
        let (answer, mark) = oracle.answer(&call.parse::<Call>().expect("a call"));
        assert_eq!(format!("{answer} | {mark}"), *wanted, "{call}");
    }
}

#[test]
fn a_client_comes_and_goes() {
    asks(&[
        ("hub 1 count default set 100", "done | inside"),
        ("handle 0301080107030422696e22", "done 2 at 11 reply 010100 | inside"),
        ("clock 105", "done | inside"),
        ("handle 0108010703046e756c6c", "done 1 at 10 reply - | inside"),
        ("handle 01080107030422696e22", "done 1 at 10 reply - | inside"),
        ("records", "records 7:3@105:null | inside"),
        ("show 8", "none | inside"),
        ("list 8", "refused 9 layer presence message 0 byte 0 reply - | inside"),
    ]);
}

#[test]
fn the_own_client_stays() {
    asks(&[
        ("hub 1 count default step 1", "done | inside"),
        ("apply 0101050131", "added 1 updated - changed - removed - | inside"),
        ("apply 010105046e756c6c", "added - updated +1 changed - removed - | lists a raised own record"),
        ("apply 010104046e756c6c", "added - updated - changed - removed - | inside"),
        ("show 1", "record 1:6@2:31 | inside"),
        ("clean", "done | inside"),
        ("apply 01010862", "refused 2 layer wire message 0 byte 0 reply - | inside"),
        ("apply 0101080132", "added - updated 1 changed +1 removed - | lists a text over null"),
        ("show 1", "record 1:8@4:32 | inside"),
    ]);
}

#[test]
fn boards_are_asked_and_answer() {
    asks(&[
        ("hub 1 count default set 0", "done | inside"),
        ("handle 0002060205ad020902", "done 1 at 9 reply - | inside"),
        ("handle 0000040105ac02", "done 1 at 7 reply 0001060205ad020902 | inside"),
        ("handle 000203010502000201ff", "refused 12 layer document wire 2 message 1 byte 6 reply - | inside"),
        ("document", "document 0205ad020902 | inside"),
        ("hub 1 slot default set 0", "done | inside"),
        ("handle 0002050105020161", "done 1 at 8 reply - | inside"),
        ("handle 000003010502", "done 1 at 6 reply 0001050105020161 | inside"),
        ("updates slot 0105000161,01050200 00", "updates 12:3,taken document 01050200 vector 010502 update 01050200 | inside"),
    ]);
}

#[test]
fn policies_differ() {
    asks(&[
        ("hub 1 count default set 0", "done | inside"),
        ("handle 031000", "refused 11 layer policy message 1 byte 1 reply 010100 | inside"),
        ("handle 02000161", "refused 10 layer policy message 0 byte 0 reply - | inside"),
        ("hub 1 count ranges set 0", "done | inside"),
        ("handle 031000", "done 2 at 3 reply 010100 | inside"),
        ("handle 2000", "refused 11 layer policy message 0 byte 0 reply - | inside"),
    ]);
}
