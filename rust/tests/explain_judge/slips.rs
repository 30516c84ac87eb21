//! Sheets with a slip, and what is told of each: `;` stands for byte 10, a space
//! for a tab and `_` for a space.

/// A gate on page 0.
pub const N: &str = "N 1 0 0 0 1 1 0 0 0 0 0 -;";

pub fn slips() -> Vec<(String, &'static str)> {
    let case = |text: &str, told| (text.to_string(), told);
    let node = |text: &str, told| (format!("P 0 0;N {text};"), told);
    vec![
        case(
            "P_0_0;",
            "line 1: spaces stand between the fields; one tab (byte 9) has to stand there",
        ),
        case(
            "P 0 0\r;",
            "line 1: the line ends in byte 13 and byte 10 (as on Windows); byte 10 alone has to end it",
        ),
        case(
            "P 0 0\rP 0 0;",
            "line 1: byte 13 (carriage return) stands in the line; byte 10 alone ends a line",
        ),
        case(
            "\u{feff}P 0 0;",
            "line 1: the line begins with bytes EF BB BF, a byte order mark; it has to begin with a letter",
        ),
        case(
            "P 0 0;\u{feff}P 0 0;",
            "line 2: the line begins with bytes EF BB BF, a byte order mark; it has to begin with a letter",
        ),
        case(
            "P 0 0;P 0 0",
            "line 2: the line lacks byte 10 (line feed) at its end",
        ),
        case(
            "P 0 0;;",
            "line 2: the line is empty; every line has a record",
        ),
        case(
            "P 0 0;__;",
            "line 2: the line has spaces and nothing else; every line has a record",
        ),
        case(
            "P 0 0; _;",
            "line 2: the line has only tabs and spaces; every line has a record",
        ),
        case(
            "P 0 0 0;",
            "line 1, field 4: P has 2 fields behind it (min_y, z); this line has 3",
        ),
        case(
            "P 0 0 ;",
            "line 1, field 4: a tab too many stands at the end: P has 2 fields behind it (min_y, z); this line has 3",
        ),
        case(
            "P 0  0;",
            "line 1, field 3: two tabs stand in a row: P has 2 fields behind it (min_y, z); this line has 3",
        ),
        case(
            "P 0;",
            "line 1: P has 2 fields behind it (min_y, z); this line has 1",
        ),
        case(
            "P;",
            "line 1: P has 2 fields behind it (min_y, z); this line has 0",
        ),
        case(
            "P 0",
            "line 1: P has 2 fields behind it (min_y, z); this line has 1; and the line lacks its byte 10 (line feed)",
        ),
        case(
            "W 1 1 2;",
            "line 1: W has 4 fields behind it (source_node, source_port, target_node, target_port); this line has 3",
        ),
        case(
            "P 0 0_;",
            "line 1, field 3: \"0 \" has a space in it; one tab (byte 9) alone stands between fields",
        ),
        case(
            "_P 0 0;",
            "line 1, field 1: \" P\" has a space in it; one tab (byte 9) alone stands between fields",
        ),
        case(
            " P 0 0;",
            "line 1, field 1: the line begins with a tab; it has to begin with P, N, C, F, X or W",
        ),
        case(
            "p 0 0;",
            "line 1, field 1: \"p\" is no section's letter; those are the capitals P, N, C, F, X and W",
        ),
        case(
            "L 0 1 8;",
            "line 1, field 1: \"L\" is a letter of answers; a board sheet's are P, N, C, F, X and W",
        ),
        case(
            "Q 0 0;",
            "line 1, field 1: \"Q\" is no section's letter (P, N, C, F, X or W)",
        ),
        case(
            "#_pages;",
            "line 1, field 1: a sheet has no comments; every line begins with P, N, C, F, X or W",
        ),
        case(
            "P,0,0;",
            "line 1, field 1: \"P,0,0\" is no section's letter (P, N, C, F, X or W)",
        ),
        case(
            "P 0 0;#;",
            "line 2, field 1: a sheet has no comments; every line begins with P, N, C, F, X or W",
        ),
        case(
            "\u{feff};",
            "line 1: the line begins with bytes EF BB BF, a byte order mark; it has to begin with a letter",
        ),
        case(
            "P 0\0 0;",
            "line 1, field 2: min_y is \"0\\x00\", which is no number",
        ),
        case(
            "P +1 0;",
            "line 1, field 2: min_y is \"+1\"; a number has no + in front",
        ),
        case(
            "P -0 0;",
            "line 1, field 2: min_y is \"-0\"; 0 has no - in front",
        ),
        case(
            "P 0 007;",
            "line 1, field 3: z is \"007\"; a number has no 0 in front",
        ),
        case(
            "P 0 12345678901;",
            "line 1, field 3: z is \"12345678901\", with 11 digits; a number has at most 10",
        ),
        case(
            "P \u{2212}5 0;",
            "line 1, field 2: min_y is \"\\xE2\\x88\\x925\"; the minus has to be - (byte 45), no other dash",
        ),
        case(
            "P 1.5 0;",
            "line 1, field 2: min_y is \"1.5\", which is no number",
        ),
        case(
            "P 0 \u{1b}[31m;",
            "line 1, field 3: z is \"\\x1B[31m\", which is no number",
        ),
        case(
            "P  0;",
            "line 1, field 2: min_y is empty; a number or - has to stand there",
        ),
        case(
            "P 0 -;",
            "line 1, field 3: z is - and has to be a number; of P only min_y may be missing",
        ),
        case(
            "W 1 - 2 1;",
            "line 1, field 3: source_port is - and has to be a number; no field of W may be missing",
        ),
        node(
            "- 0 0 0 1 1 0 0 0 0 0 -",
            "line 2, field 2: id is - and has to be a number; of N only x, y, page, down and line may be missing",
        ),
        node(
            "1 0 0 0 1 1 0 - 8 0 0 -",
            "line 2, field 9: x is - and y is not; both are numbers or both are -",
        ),
        node(
            "1 0 0 0 1 1 0 4 8 0 - -",
            "line 2, field 12: down is - and page is not; both are numbers or both are -",
        ),
        case(
            &format!("{N}P 0 0;"),
            "line 2, field 1: P stands behind the N of line 1; the order is P, N, C, F, X, W",
        ),
        case(
            &"P 0 0;".repeat(9),
            "line 9: P record 9 of 9: more than may be; the program takes 8, the library 64",
        ),
        node(
            "1 0 0 0 1001 1 0 0 0 0 0 -",
            "line 2, field 6: half_x 1001 is over 1,000",
        ),
        node(
            "1 6 3 0 1 1 0 0 0 0 0 -",
            "line 2, field 3: kind 6 is over 5 (0 Gate, 1 Event, 2 Chip, 3 Input, 4 Output, 5 Coerce)",
        ),
        node(
            "1 0 0 0 0 1 0 0 0 0 0 -",
            "line 2, field 6: half_x 0 is under 1",
        ),
        node(
            "1 0 0 0 1 1 0 -1000001 0 0 0 -",
            "line 2, field 9: x -1000001 is under -1,000,000",
        ),
        case(
            "P 9999999999 0;",
            "line 1, field 2: min_y 9999999999 is over 1,000,000",
        ),
        case("X -1 0;", "line 1, field 2: node -1 is under 0"),
        case(
            &format!("P 0 0;{N}{N}"),
            "line 3, field 2: id 1 stands already on line 2",
        ),
        case(
            "N 1 2 0 0 1 1 0 - - - - -;C 1 -;F 1 1 0;",
            "line 3, field 2: id 1 stands already on line 1",
        ),
        case(
            "N 1 2 0 0 1 1 0 - - - - -;C 1 -;C 1 -;",
            "line 3, field 2: id 1 stands already on line 2",
        ),
        case(
            &format!("P 0 0;P 0 0;{}", N.replace(" 0 0 -", " 3 0 -")),
            "line 3, field 11: page 3 is not there, the sheet has 2 pages (0 and 1)",
        ),
        case(
            N,
            "line 1, field 11: page 0 is not there, the sheet has no pages",
        ),
        case(
            "C 5 6;",
            "line 1, field 3: parent 6 is not there: no C has that id",
        ),
        case("C 5 5;", "line 1, field 3: chip 5 is its own parent"),
        case(
            "N 1 2 0 0 1 1 0 - - - - -;C 5 1;C 1 -;",
            "line 2, field 3: parent 1 is the chip of line 3; a parent stands on an earlier line",
        ),
        case(
            "C 5 -;",
            "line 1, field 2: no N has id 5; a chip without parent needs an N with its id and kind 2",
        ),
        case(
            "N 5 0 0 0 1 1 0 - - - - -;C 5 -;",
            "line 2, field 2: the N with id 5, on line 1, has kind 0; a chip without parent needs an N with its id and kind 2",
        ),
        case(
            "F 2 7 0;",
            "line 1, field 3: chip 7 is not there: no C has that id",
        ),
        case(
            "N 7 2 0 0 1 1 0 - - - - -;F 2 7 0;",
            "line 2, field 3: chip 7 is not there: no C has that id; line 1 is an N with it",
        ),
        node(
            "1 0 0 0 1 1 0 - - 0 5 -",
            "line 2: the node has a row (page 0, down 5) and no place: x and y are -",
        ),
    ]
}
