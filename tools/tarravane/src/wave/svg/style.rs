//! Colours and fonts. The colours are those of Okabe and Ito, which readers with any kind of colour vision can tell apart; no
//! meaning hangs on a colour alone: spans are labelled, marks have shapes of their own.

/// The class of a state by its number.
pub fn state(number: u32) -> &'static str {
    match number {
        0 => "s0",
        1 => "s1",
        3 => "s3",
        4 => "s4",
        5 => "s5",
        6 => "s6",
        _ => "s7",
    }
}

pub const STYLE: &str = "
@page{size:A4 landscape;margin:10mm}
text{font-family:'DejaVu Sans',Verdana,Arial,sans-serif;font-size:10px;fill:#000}
.paper{fill:#fff}
.title{font-size:15px;font-weight:bold}
.head{font-weight:bold}
.bad{fill:#D55E00;font-weight:bold}
.lane,.number,.about{text-anchor:end}
.small,.number,.fold,.said,.refused{font-size:8px}
.number.level,.on,.short{text-anchor:middle}
.fold{fill:#555;font-style:italic}
.still{fill:#555;font-size:9px;stroke:#fff;stroke-width:3px;paint-order:stroke}
.refused{fill:#D55E00;font-weight:bold}
.short{font-size:7.5px}
.s3.on,.s3.short{fill:#fff}
.grid{stroke:#ddd;stroke-width:.6}
.base{stroke:#999;stroke-width:.8}
rect.s0{fill:#eee}rect.s1{fill:#F0E442}rect.s3{fill:#000}rect.s4{fill:#56B4E9}
rect.s5{fill:#009E73}rect.s6{fill:#E69F00}rect.s7{fill:#CC79A7}
rect.s0,rect.s1,rect.s3,rect.s4,rect.s5,rect.s6,rect.s7,.mixed{stroke:#555;stroke-width:.6}
.mixed{fill:url(#mixed)}
.high{fill:#0072B2}
.raised{fill:#E69F00}
.broken{fill:url(#broken);stroke:#D55E00;stroke-width:.8}
.ack{fill:#0072B2}
.pause{fill:#fff;stroke:#0072B2;stroke-width:.8}
.event{fill:#000}
.disabled{fill:#fff;stroke:#000;stroke-width:1}
.read{stroke:#555;stroke-width:1.2}
.write{stroke:#000;stroke-width:2.6}
.staged{fill:#fff;stroke:#000;stroke-width:1}
.cross{stroke:#D55E00;stroke-width:2.2;fill:none}
.gap{stroke:#fff;stroke-width:5;fill:none}
.tear{stroke:#555;stroke-width:1;fill:none}
.cut{stroke:#D55E00;stroke-width:2;stroke-dasharray:4 3;fill:none}
";

pub const DEFINITIONS: &str = r##"<defs>
<pattern id="mixed" width="6" height="6" patternUnits="userSpaceOnUse" patternTransform="rotate(45)">
<rect width="6" height="6" fill="#fff"/><rect width="2" height="6" fill="#999"/></pattern>
<pattern id="broken" width="4" height="4" patternUnits="userSpaceOnUse" patternTransform="rotate(45)">
<rect width="4" height="4" fill="#fff"/><rect width="2" height="4" fill="#D55E00"/></pattern>
</defs>"##;
