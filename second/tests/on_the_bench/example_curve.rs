//! The example picture of the page, line by line.
//! Follows the page on the bench, 'card curve'.

use super::{slot, text};

/// The page's text.
const PAGE: &str = r##"<svg xmlns="http://www.w3.org/2000/svg" viewBox="0 0 1600 900" font-family="sans-serif" font-size="26">
<title>recipe 1: how long it takes cannot be said: segment 3 has no rate</title>
<rect width="1600" height="900" fill="#ffffff"/>
<text x="120" y="48" font-size="36">recipe 1</text>
<text x="120" y="92" fill="#404040">how long it takes cannot be said: segment 3 has no rate</text>
<g stroke-width="7" stroke-linecap="round">
<line x1="840" y1="38" x2="890" y2="38" stroke="#b3261e"/>
<line x1="1000" y1="38" x2="1050" y2="38" stroke="#d08700"/>
<line x1="1150" y1="38" x2="1200" y2="38" stroke="#1f5fa8"/>
<line x1="1300" y1="38" x2="1350" y2="38" stroke="#707070" stroke-dasharray="2 14"/>
</g>
<text x="902" y="47">climb</text>
<text x="1062" y="47">hold</text>
<text x="1212" y="47">drop</text>
<text x="1362" y="47">time unknown</text>
<g stroke="#d0d0d0" stroke-width="2">
@ a line for each of the degrees, from below: the first of them
<line x1="120" y1="800" x2="1560" y2="800"/>
@ a line for each of the hours, from the left: the first of them
<line x1="120" y1="140" x2="120" y2="800"/>
</g>
<g fill="#404040" text-anchor="end">
@ a text for each of the degrees, in whole degrees, 9 below its line: the first of them
<text x="106" y="809">0</text>
<text x="106" y="118">degrees</text>
</g>
<g fill="#404040" text-anchor="middle">
@ a text for each of the hours: the first of them
<text x="120" y="838">0</text>
<text x="840" y="880">hours</text>
</g>
<g stroke-width="7" stroke-linecap="round">
@ a line for each going and each hold, in time's order
<line class="climb" x1="120" y1="783" x2="968" y2="305" stroke="#b3261e"/>
<line class="hold" x1="968" y1="305" x2="1012" y2="305" stroke="#d08700"/>
<line class="drop" x1="1012" y1="305" x2="1450" y2="470" stroke="#1f5fa8"/>
<line class="hold" x1="1450" y1="470" x2="1560" y2="470" stroke="#d08700"/>
<line class="unsaid" x1="1560" y1="470" x2="1560" y2="726" stroke="#707070" stroke-dasharray="2 14"/>
</g>
<g fill="#202020" stroke="#ffffff" stroke-width="6" paint-order="stroke" stroke-linejoin="round" text-anchor="end">
@ for each segment, in time's order, its disc, its degrees, its minutes
<circle cx="968" cy="305" r="9"/>
<text x="1012" y="261">peak 600.0</text>
<text x="1012" y="289">12 min</text>
<text x="1560" y="504">400.0</text>
<text x="1560" y="532">30 min</text>
</g>
</svg>
"##;

/// What stands behind the first line or text, for each `@` of which the page has only this:
/// 23,640 seconds across, and a ceiling of 8000.
const OTHERS: [&str; 4] = [
    r##"<line x1="120" y1="635" x2="1560" y2="635"/>
<line x1="120" y1="470" x2="1560" y2="470"/>
<line x1="120" y1="305" x2="1560" y2="305"/>
<line x1="120" y1="140" x2="1560" y2="140"/>
"##,
    r##"<line x1="339" y1="140" x2="339" y2="800"/>
<line x1="559" y1="140" x2="559" y2="800"/>
<line x1="778" y1="140" x2="778" y2="800"/>
<line x1="997" y1="140" x2="997" y2="800"/>
<line x1="1216" y1="140" x2="1216" y2="800"/>
<line x1="1436" y1="140" x2="1436" y2="800"/>
"##,
    r##"<text x="106" y="644">200</text>
<text x="106" y="479">400</text>
<text x="106" y="314">600</text>
<text x="106" y="149">800</text>
"##,
    r##"<text x="339" y="838">1</text>
<text x="559" y="838">2</text>
<text x="778" y="838">3</text>
<text x="997" y="838">4</text>
<text x="1216" y="838">5</text>
<text x="1436" y="838">6</text>
"##,
];

/// The page's lines without those that begin with `@`, and the others where they belong.
fn wanted() -> String {
    let mut others = OTHERS.iter();
    let mut behind = "";
    let mut wanted = String::new();
    for line in PAGE.lines() {
        if line.ends_with(": the first of them") {
            behind = others.next().unwrap();
        } else if !line.starts_with('@') {
            wanted += &format!("{line}\n{}", std::mem::take(&mut behind));
        }
    }
    assert_eq!(others.next(), None);
    wanted
}

#[test]
fn the_example_is_drawn_as_the_page_has_it() {
    let card = [
        slot(1, 1, 1, 6000, 1500, 12),
        slot(1, 2, 3, 4000, 1000, 30),
        slot(1, 3, 3, 900, 0, 0),
    ];
    let picture = text(&["curve", "C", "1"], &[("C", &card.concat())]);
    let wanted = wanted();
    let pairs = picture.lines().zip(wanted.lines());
    for (number, (line, wanted)) in (1..).zip(pairs) {
        assert_eq!(line, wanted, "line {number}");
    }
    assert_eq!(picture, wanted);
}
