//! Tables read and written.
//! Follows the page on the bench, 'Numbers' and 'The table'.

use super::any::any_card;
use super::{lines, made, said, slot, text, BAD_CARD};
use second::random::Random;

const HEADER: &str = "recipe,segment,kind,target,rate,hold\n";
const FAILED: &str = "failed: the table breaks the rules of a card, and none is made:\n";

#[track_caller]
fn is_card(table: impl AsRef<[u8]>, slots: &[Vec<u8>]) {
    assert_eq!(
        made(&["from", "T"], &[("T", table.as_ref())]),
        slots.concat()
    );
}

/// What is said of a table behind the first sentence.
#[track_caller]
fn wrong(table: impl AsRef<[u8]>) -> String {
    let said = said(&["from", "T"], &[("T", table.as_ref())], 1);
    said.strip_prefix(FAILED).unwrap().to_string()
}

#[track_caller]
fn is_wrong(rows: &str, named: &[&str]) {
    assert_eq!(wrong(format!("{HEADER}{rows}")), lines(named));
}

fn two() -> Vec<Vec<u8>> {
    vec![slot(1, 2, 1, 12_700, 3000, 12), slot(7, 1, 3, 5, 0, 0)]
}

#[test]
fn each_line_is_a_record_in_the_tables_order() {
    is_card(
        format!("{HEADER}1,2,climb,1270.0,300.0,12\n7,1,drop,0.5,0,0\n"),
        &two(),
    );
    let turned: Vec<_> = two().into_iter().rev().collect();
    is_card(
        format!("{HEADER}7,1,drop,0.5,0,0\n1,2,climb,1270.0,300.0,12\n"),
        &turned,
    );
    is_card(
        format!("{HEADER}9,32,hold,1350,6553.5,65535\n"),
        &[slot(9, 32, 2, 13_500, 65_535, 65_535)],
    );
    is_card(HEADER, &[]);
}

#[test]
fn the_ways_in_which_spreadsheets_write() {
    for table in [
        "recipe,segment,kind,target,rate,hold\r\n1,2,climb,1270.0,300.0,12\r\n7,1,drop,0.5,0,0\r\n",
        "\u{FEFF}recipe,segment,kind,target,rate,hold\n1,2,climb,1270.0,300.0,12\n7,1,drop,0.5,0,0\n",
        "recipe,segment,kind,target,rate,hold\n1,2,climb,1270.0,300.0,12\r\n7,1,drop,0.5,0,0",
        "recipe,segment,kind,target,rate,hold\r\n1,2,climb,1270.0,300.0,12\r\n7,1,drop,0.5,0,0\r",
        "\"recipe\",\"segment\",kind,target,rate,\"hold\"\n\"1\",\"2\",\"climb\",\"1270.0\",300.0,12\n7,1,drop,0.5,0,0",
        "RECIPE,Segment,kInd,target,rate,hold\n1,2,CLIMB,1270.0,300.0,12\n7,1,dRop,0.5,0,0",
        " recipe\t, segment,kind ,target,rate,hold \n 1 ,\t2,climb,  1270.0\t ,300.0,12\t\n7,1,drop,0.5,0,0 \t",
        "\u{FEFF} \"recipe\"\t,segment,kind,target,rate,hold\n1,2,climb, \"1270.0\" \t,300.0,12\n7,1,drop,0.5,0,0",
        "recipe,segment,kind,target,rate,hold\n\n,,,,,\n1,2,climb,1270.0,300.0,12\n\r\n , \t,\"\"\n7,1,drop,0.5,0,0\n,,,,,,,,,\n\n",
        "recipe,segment,kind,target,rate,hold\n0001,000000002,climb,001270,0300.0,012\n7,1,drop,0.5,0.0,0\n",
    ] {
        is_card(table, &two());
    }
}

#[test]
fn the_header_is_looked_at_first_and_alone() {
    let said = "line 1: the header is not recipe,segment,kind,target,rate,hold\n";
    for header in [
        "",
        "\n",
        ",,,,,",
        "recipe",
        "recipe,segment,kind,target,rate",
        "recipe,segment,kind,target,rate,hold,",
        "segment,recipe,kind,target,rate,hold",
        "recipe;segment;kind;target;rate;hold",
        "\" recipe\",segment,kind,target,rate,hold",
        "\"recipe,segment\",kind,target,rate,hold",
        "recipe,segment,kind,target,rate,ho\"ld",
        "recipe,segment,kind,target,rate,\"hold",
        "\u{FEFF}\u{FEFF}recipe,segment,kind,target,rate,hold",
        "recipe,segment,kind,target,rate,hold\r\r",
        "\nrecipe,segment,kind,target,rate,hold",
        "1,1,climb,600,150,0",
    ] {
        assert_eq!(wrong(header), said, "{header:?}");
        assert_eq!(
            wrong(format!("{header}\nnonsense,\"\n")),
            said,
            "{header:?}"
        );
    }
}

#[test]
fn a_quote_out_of_place_is_named_alone() {
    for row in [
        "1,2,climb,1270.0,300.0,12\"",
        "1,2,cl\"imb,1270.0,300.0,12",
        "1,2,\"climb,1270.0,300.0,12",
        "1,2,\"climb\"s,1270.0,300.0,12",
        "1,2,s\"climb\",1270.0,300.0,12",
        "1,2,\"climb\" \"\",1270.0,300.0,12",
        "0,33,\",1400",
        "\"",
        ",\"\"\"",
        "0,\"\"\"\"\"",
    ] {
        is_wrong(&format!("{row}\n"), &["line 2: a quote is out of place"]);
    }
    is_wrong(
        "1,2,\"climb\n1270\",1,1,1,1\r\n",
        &[
            "line 2: a quote is out of place",
            "line 3: a quote is out of place",
        ],
    );
}

#[test]
fn quotes_keep_commas_quotes_and_spaces() {
    is_wrong(
        "\"1,2\",climb,1270.0,300.0,12",
        &["line 2: 5 fields stand where 6 are wanted"],
    );
    for field in [
        "\"1,2\"",
        "\"1\"\"\"",
        "\"\"\"\"",
        "\" 1\"",
        "\"1 \"",
        "\"\"",
        "\"\t\"",
    ] {
        is_wrong(
            &format!("{field},2,climb,1270.0,300.0,12"),
            &["line 2: recipe is no whole number of 1 to 9 digits"],
        );
    }
    is_wrong(
        "1,2,\"climb \",1270.0,300.0,12",
        &["line 2: kind is none of climb, hold and drop"],
    );
}

#[test]
fn the_fields_are_counted_before_they_are_looked_at() {
    for (row, named) in [
        (
            "0,33,x,1400,9999",
            "line 2: 5 fields stand where 6 are wanted",
        ),
        ("0", "line 2: 1 fields stand where 6 are wanted"),
        (
            "1,2,climb,1270.0,300.0,12,",
            "line 2: 7 fields stand where 6 are wanted",
        ),
        (",,,,,,,x", "line 2: 8 fields stand where 6 are wanted"),
        ("\" \"", "line 2: 1 fields stand where 6 are wanted"),
        ("\r\r", "line 2: 1 fields stand where 6 are wanted"),
        (
            "1,2,climb,1270,0,300,0,12",
            "line 2: 8 fields stand where 6 are wanted",
        ),
    ] {
        is_wrong(row, &[named]);
    }
}

#[test]
fn every_wrong_field_gets_its_sentence() {
    is_wrong(
        "x,x,x,x,x,x",
        &[
            "line 2: recipe is no whole number of 1 to 9 digits",
            "line 2: segment is no whole number of 1 to 9 digits",
            "line 2: kind is none of climb, hold and drop",
            "line 2: target is no number of 1 to 9 digits with at most one decimal place",
            "line 2: rate is no number of 1 to 9 digits with at most one decimal place",
            "line 2: hold is no whole number of 1 to 9 digits",
        ],
    );
    is_wrong(
        "0,33,4,1400,6553.6,65536\n65536,0,climbs,1350.1,999999999.9,999999999\n",
        &[
            "line 2: recipe 0 is not from 1 to 65535",
            "line 2: segment 33 is not from 1 to 32",
            "line 2: kind is none of climb, hold and drop",
            "line 2: target 1400.0 is over 1350.0",
            "line 2: rate 6553.6 is over 6553.5",
            "line 2: hold 65536 is over 65535",
            "line 3: recipe 65536 is not from 1 to 65535",
            "line 3: segment 0 is not from 1 to 32",
            "line 3: kind is none of climb, hold and drop",
            "line 3: target 1350.1 is over 1350.0",
            "line 3: rate 999999999.9 is over 6553.5",
            "line 3: hold 999999999 is over 65535",
        ],
    );
    is_wrong(
        "1,1,climb,1,1,1\n00070000,1,,1,1,1\n\n,1,climb,1,1,",
        &[
            "line 3: recipe 70000 is not from 1 to 65535",
            "line 3: kind is none of climb, hold and drop",
            "line 5: recipe is no whole number of 1 to 9 digits",
            "line 5: hold is no whole number of 1 to 9 digits",
        ],
    );
}

#[test]
fn nothing_but_digits_is_a_number() {
    let words = "0000000001;-1;+1;1e1;0x1;1 1;1_0;١;１;;one;1/2;'1;1\r;1\0";
    for word in words.split(';') {
        is_wrong(
            &format!("{word},1,climb,1,1,1\n1,1,climb,1,{word},1"),
            &[
                "line 2: recipe is no whole number of 1 to 9 digits",
                "line 3: rate is no number of 1 to 9 digits with at most one decimal place",
            ],
        );
    }
}

#[test]
fn a_target_or_rate_has_at_most_one_decimal_place() {
    let words = ".5;5.;5.00;5.25;.;5..5;1.2.3;5. 5;0000000001.5";
    for word in words.split(';') {
        is_wrong(
            &format!("1,1,climb,{word},1,1"),
            &["line 2: target is no number of 1 to 9 digits with at most one decimal place"],
        );
    }
    is_wrong(
        "1,1,climb,1,1,1.0",
        &["line 2: hold is no whole number of 1 to 9 digits"],
    );
    is_card(
        format!("{HEADER}1,1,climb,000000007.3,0.1,1"),
        &[slot(1, 1, 1, 73, 1, 1)],
    );
}

#[test]
fn bytes_that_are_no_text_are_wrong_fields() {
    let table = [HEADER.as_bytes(), b"\xFF,1,cl\xC3mb,1,1,1"].concat();
    let named = [
        "line 2: recipe is no whole number of 1 to 9 digits",
        "line 2: kind is none of climb, hold and drop",
    ];
    assert_eq!(wrong(table), lines(&named));
}

#[test]
fn a_namesake_is_named_with_its_line() {
    is_wrong(
        "3,1,drop,1,1,1\n\n1,1,hold,1,1,1\n1,2,climb,1,1,1\n1,2,hold,2,2,2\n01,02,climb,1,1,1\n",
        &[
            "line 6: recipe 1 segment 2 stands on line 5 already",
            "line 7: recipe 1 segment 2 stands on line 5 already",
        ],
    );
}

#[test]
fn a_line_with_a_wrong_field_is_not_put() {
    is_wrong(
        "1,2,climb,1400,1,1\n1,2,climb,1300,1,1\n1,2,climb,1,1,1\n1,2,x,1,1,1",
        &[
            "line 2: target 1400.0 is over 1350.0",
            "line 4: recipe 1 segment 2 stands on line 3 already",
            "line 5: kind is none of climb, hold and drop",
        ],
    );
}

fn rows(number: usize) -> String {
    let row = |i: usize| format!("{},{},hold,20,0,1\n", 1 + i / 32, 1 + i % 32);
    (0..number).map(row).collect()
}

#[test]
fn the_257th_record_has_no_room() {
    let slots: Vec<_> = (0..256)
        .map(|i| slot(1 + i / 32, 1 + (i % 32) as u8, 2, 200, 0, 1))
        .collect();
    is_card(format!("{HEADER}{}", rows(256)), &slots);
    is_wrong(
        &format!(
            "{}9,1,climb,1,1,1\n\n0,1,climb,1,1,1\n9,1,climb,1,1,1\n1,1,climb,1,1,1\n",
            rows(256)
        ),
        &[
            "line 258: 256 records are on the card already, and no more have room",
            "line 260: recipe 0 is not from 1 to 65535",
            "line 261: 256 records are on the card already, and no more have room",
            "line 262: recipe 1 segment 1 stands on line 2 already",
        ],
    );
}

#[test]
fn a_table_has_at_most_65535_bytes() {
    let row = "1,2,climb,1270.0,300.0,12\n7,1,drop,0.5,0,0\n";
    let front = format!("{HEADER}{row}");
    let most = front.clone() + &"\n".repeat(65_535 - front.len());
    is_card(&most, &two());
    let more = most + "\n";
    assert_eq!(
        said(&["from", "T"], &[("T", more.as_bytes())], 1),
        "failed: the table has more than 65,535 bytes\n"
    );
}

#[test]
fn a_card_is_written_as_a_table() {
    let card = [vec![0; 16], two().remove(0), vec![0; 32], two().remove(1)].concat();
    let table = format!("{HEADER}1,2,climb,1270.0,300.0,12\n7,1,drop,0.5,0.0,0\n");
    assert_eq!(text(&["table", "C"], &[("C", &card)]), table);
    assert_eq!(text(&["table", "C"], &[("C", &[])]), HEADER);
    assert_eq!(text(&["table", "C"], &[("C", &[0; 48])]), HEADER);
    assert_eq!(said(&["table", "C"], &[("C", &card[..31])], 1), BAD_CARD);
}

#[test]
fn a_table_written_and_read_is_the_same() {
    let mut random = Random::seeded(71);
    for _ in 0..200 {
        let card = any_card(&mut random, 257);
        let filled: Vec<_> = card.chunks(16).filter(|slot| *slot != [0; 16]).collect();
        let table = made(&["table", "C"], &[("C", &card)]);
        let back = made(&["from", "T"], &[("T", &table)]);
        assert_eq!(back, filled.concat());
        assert_eq!(made(&["table", "C"], &[("C", &back)]), table);
    }
}
