//! The picture of a recipe, its coordinates worked out by hand.
//! Follows the page on the bench, 'card curve'.

use super::{said, slot, text, BAD_CARD};

/// A climb, a hold, a climb whose time is unknown and a drop: 21,600 seconds, so that
/// 15 of them take a unit across, and a ceiling of 12,000.
fn four_kinds() -> Vec<u8> {
    [
        slot(3, 9, 3, 200, 4900, 0),
        slot(3, 1, 1, 6000, 2900, 0),
        slot(4, 1, 1, 1000, 4800, 0),
        slot(3, 4, 1, 10_000, 0, 60),
        slot(3, 2, 2, 6000, 0, 60),
    ]
    .concat()
}

const FOUR_KINDS: &str = r##"<svg xmlns="http://www.w3.org/2000/svg" viewBox="0 0 1600 900" font-family="sans-serif" font-size="26">
<title>recipe 3: how long it takes cannot be said: segment 4 has no rate</title>
<rect width="1600" height="900" fill="#ffffff"/>
<text x="120" y="48" font-size="36">recipe 3</text>
<text x="120" y="92" fill="#404040">how long it takes cannot be said: segment 4 has no rate</text>
<g stroke-width="7" stroke-linecap="round">
<line x1="840" y1="38" x2="890" y2="38" stroke="#b3261e"/>
<line x1="1000" y1="38" x2="1050" y2="38" stroke="#d08700"/>
<line x1="1150" y1="38" x2="1200" y2="38" stroke="#1f5fa8"/>
<line x1="1300" y1="38" x2="1350" y2="38" stroke="#707070" stroke-dasharray="2 14"/>
</g>
<text x="902" y="47">climb</text>
<text x="1062" y="47">hold</text>
<text x="1212" y="47">drop</text>
<text x="1362" y="47">time unknown</text>
<g stroke="#d0d0d0" stroke-width="2">
<line x1="120" y1="800" x2="1560" y2="800"/>
<line x1="120" y1="690" x2="1560" y2="690"/>
<line x1="120" y1="580" x2="1560" y2="580"/>
<line x1="120" y1="470" x2="1560" y2="470"/>
<line x1="120" y1="360" x2="1560" y2="360"/>
<line x1="120" y1="250" x2="1560" y2="250"/>
<line x1="120" y1="140" x2="1560" y2="140"/>
<line x1="120" y1="140" x2="120" y2="800"/>
<line x1="360" y1="140" x2="360" y2="800"/>
<line x1="600" y1="140" x2="600" y2="800"/>
<line x1="840" y1="140" x2="840" y2="800"/>
<line x1="1080" y1="140" x2="1080" y2="800"/>
<line x1="1320" y1="140" x2="1320" y2="800"/>
<line x1="1560" y1="140" x2="1560" y2="800"/>
</g>
<g fill="#404040" text-anchor="end">
<text x="106" y="809">0</text>
<text x="106" y="699">200</text>
<text x="106" y="589">400</text>
<text x="106" y="479">600</text>
<text x="106" y="369">800</text>
<text x="106" y="259">1000</text>
<text x="106" y="149">1200</text>
<text x="106" y="118">degrees</text>
</g>
<g fill="#404040" text-anchor="middle">
<text x="120" y="838">0</text>
<text x="360" y="838">1</text>
<text x="600" y="838">2</text>
<text x="840" y="838">3</text>
<text x="1080" y="838">4</text>
<text x="1320" y="838">5</text>
<text x="1560" y="838">6</text>
<text x="840" y="880">hours</text>
</g>
<g stroke-width="7" stroke-linecap="round">
<line class="climb" x1="120" y1="789" x2="600" y2="470" stroke="#b3261e"/>
<line class="hold" x1="600" y1="470" x2="840" y2="470" stroke="#d08700"/>
<line class="unsaid" x1="840" y1="470" x2="840" y2="250" stroke="#707070" stroke-dasharray="2 14"/>
<line class="hold" x1="840" y1="250" x2="1080" y2="250" stroke="#d08700"/>
<line class="drop" x1="1080" y1="250" x2="1560" y2="789" stroke="#1f5fa8"/>
</g>
<g fill="#202020" stroke="#ffffff" stroke-width="6" paint-order="stroke" stroke-linejoin="round" text-anchor="end">
<text x="840" y="426">600.0</text>
<text x="840" y="454">60 min</text>
<circle cx="840" cy="250" r="9"/>
<text x="1080" y="206">peak 1000.0</text>
<text x="1080" y="234">60 min</text>
</g>
</svg>
"##;

#[track_caller]
fn curve(card: &[u8], recipe: &str) -> String {
    text(&["curve", "C", recipe], &[("C", card)])
}

/// The lines of a picture between the line that begins so and the end of its group.
fn group(picture: &str, front: &str) -> Vec<String> {
    let lines = picture.lines().skip_while(|line| !line.starts_with(front));
    let group = lines.skip(1).take_while(|line| *line != "</g>");
    group.map(str::to_string).collect()
}

#[track_caller]
fn holds(picture: &str, lines: &[&str]) {
    for line in lines {
        assert!(
            picture.contains(&format!("\n{line}\n")),
            "{line}\n{picture}"
        );
    }
}

#[test]
fn a_climb_a_hold_a_drop_and_a_time_unknown() {
    assert_eq!(curve(&four_kinds(), "3"), FOUR_KINDS);
    assert_eq!(curve(&four_kinds(), "0003"), FOUR_KINDS);
}

#[test]
fn a_short_firing_is_drawn_over_an_hour() {
    let picture = curve(&four_kinds(), "4");
    holds(
        &picture,
        &[
            "<title>recipe 4: 0 h 10 min from 20 degrees</title>",
            r##"<text x="120" y="48" font-size="36">recipe 4</text>"##,
            r##"<text x="120" y="92" fill="#404040">0 h 10 min from 20 degrees</text>"##,
            r##"<line class="climb" x1="120" y1="756" x2="360" y2="580" stroke="#b3261e"/>"##,
        ],
    );
    let net = group(&picture, r##"<g stroke="#d0d0d0""##);
    let level =
        [800, 580, 360, 140].map(|y| format!(r##"<line x1="120" y1="{y}" x2="1560" y2="{y}"/>"##));
    let upright = [120, 1560].map(|x| format!(r##"<line x1="{x}" y1="140" x2="{x}" y2="800"/>"##));
    assert_eq!(net, [&level[..], &upright].concat());
    let labels = group(&picture, r##"<g fill="#202020""##);
    assert_eq!(
        labels,
        [
            r##"<circle cx="360" cy="580" r="9"/>"##,
            r##"<text x="360" y="564">peak 100.0</text>"##
        ]
    );
}

#[test]
fn where_every_time_is_known_the_unknown_is_not_explained() {
    let picture = curve(&four_kinds(), "4");
    assert!(!picture.contains("1300") && !picture.contains("time unknown"));
    let legend = group(&picture, r##"<g stroke-width="7""##);
    assert_eq!(legend.len(), 3);
    let texts = "<text x=\"1212\" y=\"47\">drop</text>\n<g stroke=\"#d0d0d0\" stroke-width=\"2\">";
    assert!(picture.contains(texts));
}

/// The texts of the hours of a kiln held at 20 degrees for so many minutes.
fn hours(minutes: u16) -> Vec<String> {
    let picture = curve(&slot(1, 1, 2, 200, 0, minutes), "1");
    let texts = group(&picture, r##"<g fill="#404040" text-anchor="middle">"##);
    let hours = texts.iter().filter(|text| text.contains("y=\"838\""));
    let inner = hours.map(|text| text.split(&['>', '<'][..]).nth(2).unwrap());
    inner.map(str::to_string).collect()
}

#[test]
fn the_hours_are_at_most_13() {
    let every = |apart: usize, last: usize| -> Vec<String> {
        (0..=last)
            .step_by(apart)
            .map(|hour| hour.to_string())
            .collect()
    };
    assert_eq!(hours(0), every(1, 1));
    assert_eq!(hours(60), every(1, 1));
    assert_eq!(hours(119), every(1, 1));
    assert_eq!(hours(120), every(1, 2));
    assert_eq!(hours(720), every(1, 12));
    assert_eq!(hours(721), every(2, 12));
    assert_eq!(hours(1440), every(2, 24));
    assert_eq!(hours(1441), every(5, 20));
    assert_eq!(hours(3601), every(10, 60));
    assert_eq!(hours(7201), every(20, 120));
    assert_eq!(hours(14_401), every(50, 200));
    assert_eq!(hours(36_001), every(100, 600));
    assert_eq!(hours(65_535), every(100, 1000));
}

/// The texts of the degrees of a recipe with this highest target.
fn degrees(target: u16) -> Vec<String> {
    let picture = curve(&slot(1, 1, 1, target, 100, 0), "1");
    group(&picture, r##"<g fill="#404040" text-anchor="end">"##)
}

#[test]
fn the_degrees_reach_over_the_peak() {
    let text = |(y, said): &(u16, &str)| format!(r##"<text x="106" y="{y}">{said}</text>"##);
    let texts = |list: &[(u16, &str)]| -> Vec<String> { list.iter().map(text).collect() };
    let low = [(809, "0"), (479, "100"), (149, "200"), (118, "degrees")];
    assert_eq!(degrees(0), texts(&low));
    assert_eq!(degrees(999), texts(&low));
    assert_eq!(degrees(1000).len(), 5);
    assert_eq!(degrees(4999).len(), 8);
    let middle = [
        (809, "0"),
        (644, "200"),
        (479, "400"),
        (314, "600"),
        (149, "800"),
        (118, "degrees"),
    ];
    assert_eq!(degrees(5000), texts(&middle));
    assert_eq!(degrees(6999), texts(&middle));
    assert_eq!(degrees(7000).len(), 7);
    assert_eq!(degrees(12_999).len(), 9);
    let six = [
        (809, "0"),
        (699, "100"),
        (589, "200"),
        (479, "300"),
        (369, "400"),
        (259, "500"),
    ];
    assert_eq!(degrees(4999)[..6], texts(&six));
    let high = [
        (809, "0"),
        (726, "200"),
        (644, "400"),
        (561, "600"),
        (479, "800"),
        (396, "1000"),
        (314, "1200"),
        (231, "1400"),
        (149, "1600"),
        (118, "degrees"),
    ];
    assert_eq!(degrees(13_000), texts(&high));
    assert_eq!(degrees(13_500), texts(&high));
}

#[test]
fn no_line_goes_where_the_kiln_is_already() {
    let card = [slot(1, 1, 1, 200, 0, 60), slot(1, 2, 3, 200, 5, 0)].concat();
    let picture = curve(&card, "1");
    holds(
        &picture,
        &[
            r##"<line class="hold" x1="120" y1="734" x2="1560" y2="734" stroke="#d08700"/>"##,
            r##"<circle cx="120" cy="734" r="9"/>"##,
            r##"<text x="1560" y="690">peak 20.0</text>"##,
            r##"<text x="1560" y="718">60 min</text>"##,
        ],
    );
    assert_eq!(picture.matches("class=").count(), 1);
}

#[test]
fn a_kiln_that_only_cools_has_no_disc() {
    let card = [slot(1, 1, 3, 100, 100, 60), slot(1, 2, 3, 50, 100, 0)].concat();
    let picture = curve(&card, "1");
    assert!(!picture.contains("circle") && !picture.contains("peak"));
    let labels = group(&picture, r##"<g fill="#202020""##);
    assert_eq!(
        labels,
        [
            r##"<text x="1272" y="801">10.0</text>"##,
            r##"<text x="1272" y="829">60 min</text>"##
        ]
    );
}

/// Six holds of an hour, 240 units each, at 500.0 and 100.0 in turn.
#[test]
fn where_the_kiln_came_from_says_where_the_labels_stand_not_the_kind() {
    let kinds = [1, 3, 2, 1, 3, 2].into_iter().zip(1..);
    let target = |segment: u8| [1000, 5000][usize::from(segment % 2)];
    let card = kinds.flat_map(|(kind, segment)| slot(1, segment, kind, target(segment), 0, 60));
    let picture = curve(&card.collect::<Vec<u8>>(), "1");
    let (high, low) = (800 - 413, 800 - 83);
    let texts = |x: u16| match x % 480 {
        360 => [(high - 44, "500.0"), (high - 16, "60 min")],
        _ => [(low + 34, "100.0"), (low + 62, "60 min")],
    };
    let text = |x, (y, said)| format!(r##"<text x="{x}" y="{y}">{said}</text>"##);
    let xs = (360..=1560).step_by(240);
    let mut wanted: Vec<String> = xs.flat_map(|x| texts(x).map(|it| text(x, it))).collect();
    wanted.insert(0, format!(r##"<circle cx="120" cy="{high}" r="9"/>"##));
    wanted[1] = wanted[1].replace("500.0", "peak 500.0");
    assert_eq!(group(&picture, r##"<g fill="#202020""##), wanted);
}

#[test]
fn the_disc_is_at_the_first_of_equal_peaks() {
    let card = [
        slot(1, 1, 1, 2000, 1800, 0),
        slot(1, 2, 2, 2000, 0, 60),
        slot(1, 3, 3, 200, 1800, 0),
        slot(1, 4, 1, 2000, 1800, 10),
    ];
    let picture = curve(&card.concat(), "1");
    assert_eq!(picture.matches("circle").count(), 1);
    assert_eq!(picture.matches("peak").count(), 1);
    let labels = group(&picture, r##"<g fill="#202020""##);
    assert_eq!(labels.len(), 6);
    assert!(labels[1].ends_with(">peak 200.0</text>") && labels[2].ends_with(">200.0</text>"));
}

#[test]
fn a_recipe_that_is_not_there() {
    let files = [("C", &four_kinds()[..]), ("B", &[0; 17])];
    for (recipe, not_there) in [
        ("7", "failed: recipe 7 is not on the card\n"),
        ("0", "failed: recipe 0 is not on the card\n"),
        ("065539", "failed: recipe 65539 is not on the card\n"),
    ] {
        assert_eq!(said(&["curve", "C", recipe], &files, 1), not_there);
    }
    assert_eq!(said(&["curve", "B", "7"], &files, 1), BAD_CARD);
    assert_eq!(said(&["curve", "B", "x"], &files, 1), BAD_CARD);
}
