//! The words of the document.

use crate::file::Time;
use crate::text::{Look, Rows};
use std::fmt::Write;

/// What a subtitle set shows.
#[derive(Debug, Clone)]
pub struct Subtitle {
    pub number: u16,
    pub justification: u8,
    pub begin: Time,
    pub end: Time,
    pub text: Rows,
}

// "The fixed lines are house. Only these vary: frame rate 25 or 30, the
// s-styles, the paragraphs." "Every line ends in LF."

const BEFORE_FRAME_RATE: &str = concat!(
    r#"<?xml version="1.0" encoding="UTF-8"?>"#,
    "\n",
    r#"<tt:tt xmlns:tt="http://www.w3.org/ns/ttml""#,
    r#" xmlns:ttp="http://www.w3.org/ns/ttml#parameter""#,
    r#" xmlns:tts="http://www.w3.org/ns/ttml#styling""#,
    r#" xmlns:ebuttm="urn:ebu:tt:metadata""#,
    r#" xml:lang="" xml:space="preserve" ttp:timeBase="smpte" ttp:frameRate=""#,
);

const BEFORE_STYLES: &str = concat!(
    r#"" ttp:frameRateMultiplier="1 1" ttp:markerMode="discontinuous""#,
    r#" ttp:dropMode="nonDrop" ttp:cellResolution="50 30">"#,
    "\n",
    "<tt:head><tt:metadata><ebuttm:documentMetadata>",
    "<ebuttm:documentEbuttVersion>v1.0</ebuttm:documentEbuttVersion>",
    "</ebuttm:documentMetadata></tt:metadata><tt:styling>\n",
    r#"<tt:style xml:id="defaultStyle" tts:fontSize="1c 1c""#,
    r#" tts:fontFamily="monospaceSansSerif" tts:textAlign="left""#,
    r##" tts:lineHeight="normal" tts:color="#ffffff""##,
    r##" tts:backgroundColor="#000000" tts:fontWeight="normal""##,
    r#" tts:fontStyle="normal" tts:textDecoration="none"/>"#,
    "\n",
    r#"<tt:style xml:id="alignLeft" tts:textAlign="left"/>"#,
    "\n",
    r#"<tt:style xml:id="alignCentre" tts:textAlign="center"/>"#,
    "\n",
    r#"<tt:style xml:id="alignRight" tts:textAlign="right"/>"#,
    "\n",
);

const BEFORE_PARAGRAPHS: &str = concat!(
    "</tt:styling><tt:layout>\n",
    r#"<tt:region xml:id="bottom" tts:origin="0% 0%" tts:extent="100% 100%""#,
    r#" tts:displayAlign="after"/>"#,
    "\n",
    r#"</tt:layout></tt:head><tt:body><tt:div style="defaultStyle" region="bottom">"#,
    "\n",
);

const AFTER_PARAGRAPHS: &str = "</tt:div></tt:body></tt:tt>\n";

const BREAK: &str = "<tt:br/>";

/// The document, whole.
pub fn document(rate: u8, subtitles: &[Subtitle]) -> String {
    let mut out = String::with_capacity(2048 + 256 * subtitles.len());
    out.push_str(BEFORE_FRAME_RATE);
    out.push_str(&rate.to_string());
    out.push_str(BEFORE_STYLES);
    styles(&mut out, &looks_in_use(subtitles));
    out.push_str(BEFORE_PARAGRAPHS);
    for subtitle in subtitles {
        paragraph(&mut out, subtitle);
    }
    out.push_str(AFTER_PARAGRAPHS);
    out
}

/// The number of spans written.
pub fn span_count(subtitles: &[Subtitle]) -> usize {
    subtitles.iter().flat_map(|subtitle| &subtitle.text.rows).map(Vec::len).sum()
}

/// "marks, all clear at the start, record the looks in use": "the marks grow to
/// 512".
fn looks_in_use(subtitles: &[Subtitle]) -> [bool; Look::COUNT] {
    let mut marks = [false; Look::COUNT];
    for span in subtitles.iter().flat_map(|subtitle| &subtitle.text.rows).flatten() {
        marks[usize::from(span.look.number())] = true;
    }
    marks
}

/// "A style is listed exactly if a span uses it, once, ascending"
fn styles(out: &mut String, marks: &[bool; Look::COUNT]) {
    for look in Look::all().filter(|look| marks[usize::from(look.number())]) {
        out.push_str("<tt:style xml:id=\"");
        style_name(out, look);
        out.push_str("\" tts:color=\"");
        out.push_str(colour(look.colour()));
        out.push_str("\" tts:backgroundColor=\"");
        out.push_str(colour(look.background()));
        out.push_str("\" tts:fontSize=\"");
        out.push_str(font_size(look.double()));
        // "In every file each s-style line then ends with" these two.
        out.push_str("\" tts:fontStyle=\"");
        out.push_str(font_style(look.italics()));
        out.push_str("\" tts:textDecoration=\"");
        out.push_str(decoration(look.underline()));
        out.push_str("\"/>\n");
    }
}

/// "The style is "s" and the look in three decimal digits."
fn style_name(out: &mut String, look: Look) {
    let number = look.number();
    out.push('s');
    digit(out, (number / 100) as u8);
    two_digits(out, (number % 100) as u8);
}

/// "Colour bits from the lowest are red, green, blue."
fn colour(bits: u8) -> &'static str {
    const COLOURS: [&str; 8] =
        ["#000000", "#ff0000", "#00ff00", "#ffff00", "#0000ff", "#ff00ff", "#00ffff", "#ffffff"];
    COLOURS[usize::from(bits)]
}

/// "("1c 1c" in single height)"
fn font_size(double: bool) -> &'static str {
    if double {
        "1c 2c"
    } else {
        "1c 1c"
    }
}

/// "tts:fontStyle (normal, italic)"
fn font_style(italics: bool) -> &'static str {
    if italics {
        "italic"
    } else {
        "normal"
    }
}

/// "tts:textDecoration (none, underline)"
fn decoration(underline: bool) -> &'static str {
    if underline {
        "underline"
    } else {
        "none"
    }
}

/// One paragraph. "An empty paragraph keeps both tags."
fn paragraph(out: &mut String, subtitle: &Subtitle) {
    // "The id is "sub" and SN without leading zeros."
    let _ = write!(out, "<tt:p xml:id=\"sub{}\" style=\"", subtitle.number);
    out.push_str(alignment(subtitle.justification));
    out.push_str("\" begin=\"");
    time(out, subtitle.begin);
    out.push_str("\" end=\"");
    time(out, subtitle.end);
    out.push_str("\">");
    // "One tt:br between rows, then one for each filler line."
    for (number, row) in subtitle.text.rows.iter().enumerate() {
        if number > 0 {
            out.push_str(BREAK);
        }
        for span in row {
            out.push_str("<tt:span style=\"");
            style_name(out, span.look);
            out.push_str("\">");
            escaped(out, &span.text);
            out.push_str("</tt:span>");
        }
    }
    for _ in 0..subtitle.text.filler {
        out.push_str(BREAK);
    }
    out.push_str("</tt:p>\n");
}

/// "JC 00h (house) and 01h give alignLeft, 02h alignCentre, 03h alignRight."
fn alignment(justification: u8) -> &'static str {
    match justification {
        0x02 => "alignCentre",
        0x03 => "alignRight",
        _ => "alignLeft",
    }
}

/// A time as in "10:00:01:02".
fn time(out: &mut String, time: Time) {
    two_digits(out, time.hours);
    out.push(':');
    two_digits(out, time.minutes);
    out.push(':');
    two_digits(out, time.seconds);
    out.push(':');
    two_digits(out, time.frames);
}

fn two_digits(out: &mut String, number: u8) {
    digit(out, number / 10);
    digit(out, number % 10);
}

fn digit(out: &mut String, number: u8) {
    out.push(char::from(b'0' + number));
}

/// "Text is UTF-8; & < > become `&amp;` `&lt;` `&gt;`."
fn escaped(out: &mut String, text: &str) {
    for character in text.chars() {
        match character {
            '&' => out.push_str("&amp;"),
            '<' => out.push_str("&lt;"),
            '>' => out.push_str("&gt;"),
            other => out.push(other),
        }
    }
}
