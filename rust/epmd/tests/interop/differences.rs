//! Where the two mappers differ: the case, what each does, and the row of docs/INTEROP.md that says
//! why.
//!
//! What a mapper does: its replies, whether it keeps the connection open, and the names that it has
//! then.

pub struct Difference {
    pub case: &'static str,
    pub ours: &'static str,
    pub real: &'static str,
    pub why: &'static str,
}

const fn row(
    case: &'static str,
    ours: &'static str,
    real: &'static str,
    why: &'static str,
) -> Difference {
    Difference {
        case,
        ours,
        real,
        why,
    }
}

pub const DIFFERENCES: &[Difference] = &[
    row("DUMP", "closed; ", r#"port "", closed; "#, "dump-kill-stop"),
    row(
        "ALIVE2 of a name taken",
        "118 1 0, open; ride",
        "118 1 99, open; ride",
        "result-1",
    ),
    row(
        "ALIVE2, version 5, of a name taken",
        "121 1 0, open; ride",
        "121 1 99, open; ride",
        "result-1",
    ),
    row(
        "ALIVE2, highest 4",
        "closed; ",
        "121 0 creation, open; ride",
        "versions",
    ),
    row(
        "ALIVE2, lowest 7",
        "closed; ",
        "118 0 creation, open; ride",
        "versions",
    ),
    row(
        "ALIVE2, lowest above highest",
        "closed; ",
        "121 0 creation, open; ride",
        "versions",
    ),
    row(
        "ALIVE2, extra of 129",
        "closed; ",
        "118 0 creation, open; ride",
        "extra",
    ),
    row(
        "ALIVE2, extra of 1024",
        "closed; ",
        "118 1 99, open; ",
        "extra",
    ),
    row(
        "ALIVE2, a byte behind extra",
        "closed; ",
        "118 0 creation, open; ride",
        "bytes-behind",
    ),
    row(
        "ALIVE2 as the 65th",
        "118 3 0, open; n0 n1 n10 n1... (245)",
        "118 0 creation, open; late n0 n1 n... (250)",
        "64-places",
    ),
    row(
        "ALIVE2, version 5, as the 65th",
        "121 3 0, open; n0 n1 n10 n1... (245)",
        "121 0 creation, open; n0 n1 n10 n1... (250)",
        "64-places",
    ),
    row(
        "ALIVE2 of a name taken, as the 65th",
        "118 1 0, open; n0 n1 n10 n1... (245)",
        "118 1 99, open; n0 n1 n10 n1... (245)",
        "result-1",
    ),
    row(
        "name with @",
        "closed; ",
        "118 0 creation, open; a@b",
        "name-rule",
    ),
    row(
        "name not in UTF-8",
        "closed; ",
        "118 1 99, open; ",
        "name-rule",
    ),
    row(
        "name of 256 bytes",
        "closed; ",
        "118 1 99, open; ",
        "name-rule",
    ),
    row(
        "name of 1021 bytes",
        "closed; ",
        "118 1 99, open; ",
        "name-rule",
    ),
    row(
        "NAMES of two",
        r#"port "name ride at port 4370\nname other at port 4371\n", closed; other ride"#,
        r#"port "name other at port 4371\nname ride at port 4370\n", closed; other ride"#,
        "order-of-names",
    ),
    row(
        "NAMES with a byte behind",
        "closed; ride",
        r#"port "name ride at port 4370\n", closed; ride"#,
        "bytes-behind",
    ),
    row(
        "PORT_PLEASE2, zero byte behind the name",
        "closed; ride",
        r"119 0 \x11\x12M\x00\x00\x06\x00\x05\x00\x04ride\x00\x00, closed; ride",
        "name-rule",
    ),
    row(
        "PORT_PLEASE2 of 255 bytes",
        r"119 0 \x00\x01M\x0... (300), closed; uuuuuuuuuuuu... (255)",
        "closed; uuuuuuuuuuuu... (255)",
        "long-name",
    ),
    row(
        "PORT_PLEASE2 with @",
        "closed; ",
        r"w\x01, closed; ",
        "name-rule",
    ),
    row(
        "two requests in one segment",
        r"119 0 \x11\x12M\x00\x00\x06\x00\x05\x00\x04ride\x00\x00, closed; ride",
        "closed; ride",
        "one-segment",
    ),
    row(
        "ALIVE2 and NAMES in one segment",
        r#"118 0 creation, port "name ride at port 4370\n", closed; "#,
        "closed; ",
        "one-segment",
    ),
    row(
        "ALIVE2, then ALIVE2",
        "118 0 creation, 118 2 0, open; ride",
        "118 0 creation, closed; ",
        "second-request",
    ),
    row(
        "ALIVE2, version 5, twice",
        "121 0 creation, 121 2 0, open; ride",
        "121 0 creation, closed; ",
        "second-request",
    ),
    row(
        "ALIVE2, then ALIVE2 of its own name",
        "118 0 creation, 118 1 0, open; ride",
        "118 0 creation, closed; ",
        "second-request",
    ),
    row(
        "ALIVE2, then ALIVE2 of a name taken",
        "118 0 creation, 118 1 0, open; other ride",
        "118 0 creation, closed; ride",
        "second-request",
    ),
    row(
        "ALIVE2 as the 64th, then ALIVE2",
        "118 0 creation, 118 2 0, open; n0 n1 n10 n1... (246)",
        "118 0 creation, closed; n0 n1 n10 n1... (241)",
        "second-request",
    ),
    row(
        "ALIVE2, then NAMES",
        r#"118 0 creation, port "name ride at port 4370\n", closed; "#,
        "118 0 creation, closed; ",
        "second-request",
    ),
    row(
        "ALIVE2, then PORT_PLEASE2",
        r"118 0 creation, 119 0 \x11\x12M\x00\x00\x06\x00\x05\x00\x04ride\x00\x00, closed; ",
        "118 0 creation, closed; ",
        "second-request",
    ),
    row(
        "ALIVE2 of a name taken, then ALIVE2",
        "118 1 0, 118 0 creation, open; other ride",
        "118 1 99, closed; ride",
        "second-request",
    ),
    row(
        "ALIVE2 of a name taken, three times",
        "118 1 0, 118 1 0, closed; ride",
        "118 1 99, closed; ride",
        "second-request",
    ),
    row(
        "KILL while a node is registered",
        "closed; ride",
        "NO, closed; ride",
        "dump-kill-stop",
    ),
];
