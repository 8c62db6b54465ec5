//! The bench's examples, answered by the original's program.

use origin::bench::Origin;
use words::examples::{self, of_original, through};

#[test]
fn examples() {
    let rows = examples::examples();
    let requests: Vec<&str> = rows.iter().map(|(request, _)| *request).collect();
    let said = through(env!("CARGO_BIN_EXE_bench-origin"), &requests);
    for ((request, answer), said) in rows.iter().zip(said) {
        assert_eq!(said, of_original(request, answer), "{request}");
    }
}

#[test]
fn another_limit_is_seen() {
    let request = "feed f0.01*2352.f7";
    assert_ne!(words::line(&mut Origin::<2353>, request), words::line(&mut Origin::<2354>, request));
}

#[test]
fn added_calls_are_not_made_up() {
    for request in ["common 241 5 0000", "rtw 248 00", "rsw - 00 rt 248", "call 0,0,-,0,0,0 00 -", "reset 0,0,-,0,0,0", "held 144,0,1,1"] {
        assert_eq!(words::line(&mut Origin::<2354>, request), "? the original has no such call", "{request}");
    }
}

#[test]
fn a_record_is_passed_over_where_it_cannot_be_held() {
    for (request, skipped) in [
        ("chan 144 15 1 2 000000", false),
        ("chan 144 16 1 2 000000", true),
        ("fwrite u15 3 0 0 0 0 0 0 0 0 0 0 - 00*8", false),
        ("fwrite u16 3 0 0 0 0 0 0 0 0 0 0 - 00*8", true),
        ("fwrite all 15 0 0 0 0 0 0 0 0 0 0 - 00*8", true),
        ("fwrite all 3 0 99 99 199 199 99 1 99 0 0 0505 00*8", false),
        ("fwrite all 1 0 0 8 0 0 0 0 0 0 0 - 00*10", true),
        ("fwrite all 8 0 6 0 0 0 32 0 0 0 0 - 00*9", false),
        ("fwrite all 8 0 6 0 0 0 32 1 0 0 0 - 00*9", true),
        ("readback u127 3 0 0 0 0 0 0 0 0 0 0 -", true),
        ("wreq u16 00*6", true),
        ("wrep u15 1 2 3 4 00*17", false),
        ("wrep u16 1 2 3 4 00*17", true),
        ("plen 16140901064495857657", false),
        ("plen 16140901064495857658", true),
    ] {
        assert_eq!(words::line(&mut Origin::<2354>, request) == "skip", skipped, "{request}");
    }
}
