//! The bench's examples, answered by the engine's program; malformed lines stand between them.

use words::examples::{self, through};

#[test]
fn examples() {
    let rows = examples::examples();
    let requests: Vec<&str> = rows.iter().map(|(request, _)| *request).collect();
    let said = through(env!("CARGO_BIN_EXE_bench"), &requests);
    for ((request, answer), said) in rows.iter().zip(said) {
        assert_eq!(said, *answer, "{request}");
    }
}

/// Words and refusals that the original cannot be asked for.
#[test]
fn added_words() {
    let rows = [
        ("common 241 127 0000", "ok 2 | f17f"),
        ("common 241 128 0000", "no 21 128 | 0000"),
        ("common 242 16383 00*4", "ok 3 | f27f7f00"),
        ("common 242 16384 00*4", "no 21 16384 | 00000000"),
        ("common 243 5 00", "no 14 2 1 | 00"),
        ("common 246 65535 00", "ok 1 | f6"),
        ("rtw 254 0000", "ok 1 | fe00"),
        ("rtw 254 -", "no 14 1 0 | -"),
        ("reset 1,77,144,9,200,201", "ok 0,0,-,0,200,201"),
        ("call 1,0,-,0,0,0 00*2354 -", "no 20 | -"),
        ("call 1,2355,-,0,0,0 00*2354 -", "no 20 | -"),
        ("call 0,0,192,1,5,0 00*2354 05", "no 20 | -"),
        ("call 0,0,-,0,0,0 00*2354 -", "ok 0 0,0,-,0,0,0 | -"),
        ("chan 144 16 1 2 -", "no 17 16 | -"),
        ("wreq u16 -", "no 5 16 | -"),
        ("wrep u255 1 2 3 4 -", "no 5 255 | -"),
        ("fwrite u0 15 0 0 0 0 0 0 0 0 0 0 - -", "no 6 15 | -"),
        ("fwrite u0 16 0 0 8 0 0 0 0 3 0 0 - -", "no 12 3 | -"),
        ("fwrite u0 2 0 5 8 128 0 0 0 0 0 0 - -", "no 8 5 | -"),
        ("fwrite u0 8 0 6 0 0 0 32 1 0 0 0 - -", "no 11 32 | -"),
        ("fwrite u0 9 0 0 0 1 128 0 0 0 0 0 - -", "no 10 128 | -"),
        ("readback u0 0 128 0 0 0 0 0 0 0 0 0 -", "no 2 128"),
        ("held", "ok counts=0,0,0,0,0,0,0,0,0,0,0,0,0,0,0,0 first=none"),
    ];
    let requests: Vec<&str> = rows.iter().map(|(request, _)| *request).collect();
    for ((request, answer), said) in rows.iter().zip(through(env!("CARGO_BIN_EXE_bench"), &requests)) {
        assert_eq!(said, *answer, "{request}");
    }
}
