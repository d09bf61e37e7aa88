//! Printed tables and matrices against the rules, with the misprints listed.
//! Follows document 002, sections 2.3.1, 3.2 and 3.6 to 3.10, document 000 where
//! it prints the same things, document 001, table 1, and document 02, request 2.

use second::hierocrypt3::keys::H;
use second::hierocrypt3::operations::{tables, A, C, FIELD, P};
use second::matrix::{product, unit, Matrix};
use second::noekeon::{DESIGNERS, EARLIER};
use second::{e2, hierocrypt3};

/// Document 002, section 3.6, as printed.
const S_PRINTED: [&str; 16] = [
    "07 FC 55 70 98 8E 84 4E BC 75 CE 18 02 E9 5D 80",
    "1C 60 78 42 9D 2E F5 E8 C6 TA 2F A4 B2 5F 19 87",
    "0B 9B 9C D3 C3 77 3D 6F B9 2D 4D F7 8C A7 AC 17",
    "3C 5A 41 C9 29 ED DE 27 69 30 72 A8 95 3E F9 D8",
    "21 8B 44 D7 11 0D 48 FD 6A 01 57 E5 BD 85 EC 1E",
    "37 9F B5 9A 7C 09 F1 B1 94 81 82 08 FB CO 51 OF",
    "61 7F 1A 56 96 13 C1 67 99 03 5E B6 CA FA 9E DF",
    "D6 83 CC A2 12 23 B7 65 DO 39 7D 3B D5 BO AF 1F",
    "06 C8 34 C5 1B 79 4B 66 BF 88 4A C4 EF 58 3F 0A",
    "2C 73 D1 F8 6B E6 20 B8 22 43 B3 33 E7 F0O 71 TE",
    "52 89 47 63 OE 6D E3 BE 59 64 EE F6 38 5C F4 5B",
    "49 D4 E0 F3 BB 54 26 2B 00 8 90 FF FE A6 7B 05",
    "AD 68 Al 10 EB C7 E2 F2 46 8A 6C 14 6E CF 35 45",
    "50 D2 92 74 93 E1 DA AE A9 53 E4 40 CD BA 97 A3",
    "91 31 25 76 36 32 28 3A 24 4C DB D9 8D DC 62 2A",
    "EA 15 DD C2 A5 0C 04 1D 8F CB B4 4F 16 AB AA A0",
];

/// The places where 002's table isn't what the rule gives: place, print, rule.
const S_BROKEN: [(usize, &str, u8); 10] = [
    (0x19, "TA", 0x7A),
    (0x5D, "CO", 0xC0),
    (0x5F, "OF", 0x0F),
    (0x78, "DO", 0xD0),
    (0x7D, "BO", 0xB0),
    (0x9D, "F0O", 0xF0),
    (0x9F, "TE", 0x7E),
    (0xA4, "OE", 0x0E),
    (0xB9, "8", 0x86),
    (0xC2, "Al", 0xA1),
];

/// Document 001, table 1, as printed.
const E2_S_PRINTED: [[u8; 16]; 16] = [
    [
        225, 66, 62, 129, 78, 23, 158, 253, 180, 63, 44, 218, 49, 30, 224, 65,
    ],
    [
        204, 243, 130, 125, 124, 18, 142, 187, 228, 88, 21, 213, 111, 233, 76, 75,
    ],
    [
        53, 123, 90, 154, 144, 69, 188, 248, 121, 214, 27, 136, 2, 171, 207, 100,
    ],
    [
        9, 12, 240, 1, 164, 176, 246, 147, 67, 99, 134, 220, 17, 165, 131, 139,
    ],
    [
        201, 208, 25, 149, 106, 161, 92, 36, 110, 80, 33, 128, 47, 231, 83, 15,
    ],
    [
        145, 34, 4, 237, 166, 72, 73, 103, 236, 247, 192, 57, 206, 242, 45, 190,
    ],
    [
        93, 28, 227, 135, 7, 13, 122, 244, 251, 50, 245, 140, 219, 143, 37, 150,
    ],
    [
        168, 234, 205, 51, 101, 84, 6, 141, 137, 10, 94, 217, 22, 14, 113, 108,
    ],
    [
        11, 255, 96, 210, 46, 211, 200, 85, 194, 35, 183, 116, 226, 155, 223, 119,
    ],
    [
        43, 185, 60, 98, 19, 229, 148, 52, 177, 39, 132, 159, 215, 81, 0, 97,
    ],
    [
        173, 133, 115, 3, 8, 64, 239, 104, 254, 151, 31, 222, 175, 102, 232, 184,
    ],
    [
        174, 189, 179, 235, 198, 107, 71, 169, 216, 167, 114, 238, 29, 126, 170, 182,
    ],
    [
        117, 203, 212, 48, 105, 32, 127, 55, 91, 157, 120, 163, 241, 118, 250, 5,
    ],
    [
        61, 58, 68, 87, 59, 202, 199, 138, 24, 70, 156, 191, 186, 56, 86, 26,
    ],
    [
        146, 77, 38, 41, 162, 152, 16, 153, 112, 160, 197, 40, 193, 109, 20, 172,
    ],
    [
        249, 95, 79, 196, 195, 209, 252, 221, 178, 89, 230, 181, 54, 82, 74, 42,
    ],
];

/// Document 002, section 3.2, as printed.
const MDS_H_002: [&str; 16] = [
    "1010101011011111",
    "1101110111100111",
    "1110111011110011",
    "0101010110101110",
    "1111101010101101",
    "0111110111011110",
    "0011111011101111",
    "1110010101011010",
    "1101111110101010",
    "1110011111011101",
    "1111001111101110",
    "1010111001010101",
    "1010110111111010",
    "1101111001111101",
    "1110111100111110",
    "0101101011100101",
];

/// Document 000, the matrix of MDS_H in Hierocrypt-3, as printed.
const MDS_H_000: [&str; 16] = [
    "1010101011011111",
    "1101110111100111",
    "1110111011110011",
    "0101010110101110",
    "1111101010101101",
    "0111110111011110",
    "0011111011101111",
    "1110010101011010",
    "1101111101010100",
    "1111011111011111",
    "1111001111101110",
    "1010111001010101",
    "1010110111110100",
    "1101111101111101",
    "1110111100111110",
    "0101101011100101",
];

fn bits<const N: usize>(rows: [&str; N]) -> Matrix<N> {
    rows.map(|row| {
        let row = row.as_bytes();
        std::array::from_fn(|column| row[column] - b'0')
    })
}

#[test]
fn the_s_table_of_002_is_broken_at_ten_places() {
    let printed: Vec<&str> = S_PRINTED.iter().flat_map(|row| row.split(' ')).collect();
    assert_eq!(printed.len(), 256);
    let broken: Vec<(usize, &str, u8)> = (0..256)
        .map(|x| (x, printed[x], hierocrypt3::operations::s(x as u8)))
        .filter(|&(_, print, rule)| print != format!("{rule:02X}"))
        .collect();
    assert_eq!(broken, S_BROKEN);
}

#[test]
fn the_s_table_of_001_has_no_misprint() {
    for (x, &printed) in E2_S_PRINTED.iter().flatten().enumerate() {
        assert_eq!(e2::functions::s(x as u8), printed, "at {x}");
    }
}

#[test]
fn both_substitutions_are_permutations() {
    for s in [hierocrypt3::operations::s, e2::functions::s] {
        let mut values: Vec<u8> = (0..=255).map(s).collect();
        values.sort_unstable();
        assert_eq!(values, (0..=255).collect::<Vec<u8>>());
    }
}

#[test]
fn the_mds_h_of_002_is_right_and_that_of_000_is_wrong_in_some_rows() {
    assert_eq!(bits(MDS_H_002), tables().mds_h);
    let wrong: Vec<usize> = (0..16)
        .filter(|&row| bits(MDS_H_000)[row] != tables().mds_h[row])
        .map(|row| row + 1)
        .collect();
    assert_eq!(wrong, [9, 10, 13, 14]);
}

#[test]
fn mds_l_and_its_inverse_are_the_printed_matrices() {
    let forward = [
        [0xC4, 0x65, 0xC8, 0x8B],
        [0x8B, 0xC4, 0x65, 0xC8],
        [0xC8, 0x8B, 0xC4, 0x65],
        [0x65, 0xC8, 0x8B, 0xC4],
    ];
    assert_eq!(tables().mds_l, forward);
    assert_eq!(tables().mds_l_inverse[0], [0x82, 0xC4, 0x34, 0xF6]);
    assert_eq!(product(FIELD, &tables().mds_l_inverse, &forward), unit());
}

#[test]
fn the_inverse_of_p_n_is_the_printed_matrix_and_000_prints_a_wrong_last_row() {
    let legible_in_002 = [(0, [1, 1, 1, 0]), (2, [0, 1, 1, 0])];
    for (row, printed) in legible_in_002 {
        assert_eq!(tables().p_inverse[row], printed);
    }
    let inverse_000 = bits(["1110", "1101", "0110", "1001"]);
    assert_eq!(tables().p_inverse, inverse_000);
    let forward_000 = bits(["1010", "0101", "0111", "0101"]);
    assert_eq!(forward_000[..3], P[..3]);
    assert_ne!(forward_000[3], P[3]);
}

#[test]
fn mb3_is_the_printed_matrix_and_undoes_m5e() {
    let first = bits(["0101", "1010", "1101", "1011"]);
    let last = bits(["1100", "0110", "1011", "1001"]);
    assert_eq!(tables().a_inverse, first);
    assert_eq!(tables().c_inverse, last);
    assert_eq!(product(FIELD, &first, &A), unit());
    assert_eq!(product(FIELD, &C, &last), unit());
}

/// trunc(sqrt(n) / 4) of 002, section 2.3.1, is the whole part of 2^30 sqrt(n).
#[test]
fn the_constants_h_are_roots() {
    let is_root = |h: u32, n: u128| {
        let (h, square) = (u128::from(h), n << 60);
        h * h <= square && square < (h + 1) * (h + 1)
    };
    for (h, n) in H.into_iter().zip([2, 3, 5, 10]) {
        assert!(is_root(h, n), "{h:08X}");
    }
    let misprinted_in_000 = 0x6AC2_C1D6;
    assert!(!is_root(misprinted_in_000, 10));
}

#[test]
fn noekeon_constants_are_the_list_of_request_2() {
    let printed = "80 1B 36 6C D8 AB 4D 9A 2F 5E BC 63 C6 97 35 6A D4";
    let given = DESIGNERS
        .constants
        .map(|constant| format!("{constant:02X}"));
    assert_eq!(given.join(" "), printed);
    assert_eq!(EARLIER.constants, [0; 17]);
}
