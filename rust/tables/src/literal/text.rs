//! Texts, what is read from them and what is printed of them (01, "The printing
//! program" and "Examples").

/// An input and the numbers read from it, or none where it is refused.
#[derive(Debug)]
pub struct Parse {
    pub text: Vec<u8>,
    pub numbers: Option<Vec<u32>>,
}

fn reads(text: impl Into<Vec<u8>>, numbers: &[u32]) -> Parse {
    Parse {
        text: text.into(),
        numbers: Some(numbers.to_vec()),
    }
}

fn refuses(text: impl Into<Vec<u8>>) -> Parse {
    Parse {
        text: text.into(),
        numbers: None,
    }
}

/// 1 2 3 and so many spaces.
fn spaces_after(spaces: usize) -> String {
    "1 2 3".to_string() + &" ".repeat(spaces)
}

/// Every byte after 1 2 3: a line end, a space and the ten digits are text, and no other.
fn bytes() -> impl Iterator<Item = Parse> {
    (0..=255).map(|byte| {
        let text = [b"1 2 3", &[byte][..]].concat();
        match byte {
            10 | 32 => reads(text, &[1, 2, 3]),
            48..=57 => reads(text, &[1, 2, 30 + u32::from(byte - 48)]),
            _ => refuses(text),
        }
    })
}

pub fn parses() -> Vec<Parse> {
    let mut rows = vec![
        reads("2 2 10 3 4 5 6", &[2, 2, 10, 3, 4, 5, 6]),
        // nothing; spaces only; two numbers; three
        refuses(""),
        refuses(" \n "),
        refuses("1 2"),
        reads("1 2 3", &[1, 2, 3]),
        // leading and trailing spaces and line ends, several between; leading zeros
        reads("\n 1\n\n2 \n 3\n ", &[1, 2, 3]),
        reads("001 0 002", &[1, 0, 2]),
        // after 1 2 3: a tab, a carriage return, a minus sign, a zero byte, the bytes
        // before 0 and after 9
        refuses("1 2 3\t"),
        refuses("1 2 3\r\n"),
        refuses("1 2 3 -1"),
        refuses("1 2 3\0"),
        refuses("1 2 3/"),
        refuses("1 2 3:"),
        // the largest number, and one more
        reads("1 2 4294967295", &[1, 2, 4_294_967_295]),
        refuses("1 2 4294967296"),
        // numbers of which only the low 32, 64 or 128 bits are no more than 4,294,967,295
        refuses("1 2 4294967297"),
        refuses("4294967297 2 3"),
        refuses("1 4294967297 3"),
        refuses("1 2 3 4294967297"),
        refuses("1 2 18446744073709551616"),
        refuses("1 2 18446744073709551617"),
        refuses("1 2 340282366920938463463374607431768211457"),
        // 40 zeros before a number
        reads("1 2 ".to_string() + &"0".repeat(40) + "3", &[1, 2, 3]),
        // 1 2 3 and spaces, 4,096 bytes and 4,097
        reads(spaces_after(4091), &[1, 2, 3]),
        refuses(spaces_after(4092)),
    ];
    rows.extend(bytes());
    rows
}

/// Numbers and their digits.
pub const NUMERALS: &[(u64, &str)] = &[
    (0, "0"),
    (7, "7"),
    (9, "9"),
    (10, "10"),
    (99, "99"),
    (100, "100"),
    (256, "256"),
    (65_536, "65536"),
    (4_294_967_295, "4294967295"),
    (4_294_967_296, "4294967296"),
    (18_446_744_073_709_551_615, "18446744073709551615"),
];

/// What is printed of a refused text.
pub const REFUSED: &str = "refused text\n";

/// An input and what is printed of it.
#[derive(Debug)]
pub struct Output {
    pub text: &'static str,
    pub prints: &'static str,
}

pub const OUTPUTS: &[Output] = &[
    // the listing of 01
    Output {
        text: "2 2 10 3 4 5 6",
        prints: "2 2 10 4\n2 0 0 0 1\n1 0 0 1 1\n4 0 1 1 0\n3 1 0 0 1\n",
    },
    // one row of two columns, the fourth table of 01
    Output {
        text: "1 2 4 4 6",
        prints: "1 2 4 2\n2 1 1\n2 1 2\n",
    },
    // rows and columns are not to be exchanged
    Output {
        text: "2 3 1000 300400 70 65936 1500 260 999",
        prints: "2 3 1000 7\n100 300 0 66 1 1 1\n494 300 0 66 2 0 1\n1 300 1 66 2 0 0\n\
            5 300 1 66 2 0 1\n176 301 0 66 1 0 1\n160 301 0 66 1 1 1\n64 301 1 65 1 0 1\n",
    },
    // the largest denominator and cell
    Output {
        text: "1 1 65535 65535000",
        prints: "1 1 65535 1\n65535 1000\n",
    },
    Output {
        text: "13 1 1",
        prints: "refused 1\n",
    },
    Output {
        text: "1 1 1",
        prints: "refused 3\n",
    },
    Output {
        text: "1 1 1 1001",
        prints: "refused 4\n",
    },
    Output {
        text: "257 1 1 0",
        prints: "refused 1\n",
    },
    Output {
        text: "65537 1 1 0",
        prints: "refused 1\n",
    },
    Output {
        text: "1 257 1 0",
        prints: "refused 1\n",
    },
    Output {
        text: "1 65537 1 0",
        prints: "refused 1\n",
    },
    Output {
        text: "1 1 65536 0",
        prints: "refused 2\n",
    },
    Output {
        text: "1 1 65537 0",
        prints: "refused 2\n",
    },
    Output {
        text: "1 1 1 65536",
        prints: "refused 4\n",
    },
    Output {
        text: "13 1",
        prints: REFUSED,
    },
    Output {
        text: "4294967297 1 1 0",
        prints: REFUSED,
    },
];
