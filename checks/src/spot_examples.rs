//! What the program `spot_examples` must write: spots read one after another, computed by the reference.

use crate::mosaics::filled;
use crate::planes_call::Planes;
use crate::spot::{spot, Kept, Reading, Spot, View};

const WIDTH: usize = 40;
const HEIGHT: usize = 36;

/// One value for each colour.
fn flat(samples: [u16; 3]) -> Planes {
    samples.map(|sample| vec![sample; WIDTH * HEIGHT])
}

/// Red rises along both rows and columns, green and blue along one of them.
fn ramp() -> Planes {
    let held: [fn(usize, usize) -> usize; 3] = [|r, c| 100 * r + c, |r, _| 3 * r, |_, c| c];
    held.map(|held| filled(WIDTH, HEIGHT, |r, c| held(r, c) as u16))
}

/// Each float's bits.
fn bits(spot: Spot) -> String {
    spot.map(|float| format!(" {:016x}", float.to_bits())).concat()
}

fn words(answer: Result<Reading, u32>) -> String {
    match answer {
        Ok(Reading::Starting) => "starting".to_string(),
        Ok(Reading::Dark) => "dark".to_string(),
        Ok(Reading::Steady(spot)) => format!("steady{}", bits(spot)),
        Err(number) => format!("refused {number}"),
    }
}

/// A line: the answer, and what is kept from now on.
fn line(view: &View, planes: &Planes, kept: &mut Kept) -> String {
    let answer = spot(view, planes.each_ref().map(|plane| &plane[..]), *kept);
    if let Ok((next, _)) = answer {
        *kept = next;
    }
    let lit = if kept.lit { "lit" } else { "not lit" };
    format!("{}; kept{}, {lit}\n", words(answer.map(|(_, reading)| reading)), bits(kept.spot))
}

pub fn text() -> String {
    let at = |row, column| View { width: WIDTH, height: HEIGHT, row, column };
    let (bed, ramp) = (flat([7, 8, 9]), ramp());
    let mut short = bed.clone();
    short[1].pop();
    let calls = [
        (at(3, 5), &flat([7, 8, 0])),
        (at(5, 0), &bed),
        (at(4, 8), &bed),
        (at(0, 0), &bed),
        (at(0, 0), &flat([1, 2, 0])),
        (at(0, 9), &bed),
        (at(1, 1), &bed),
        (at(0, 0), &flat([65_535, 0, 10])),
        (at(4, 8), &flat([65_535; 3])),
        (at(2, 3), &ramp),
        (at(3, 2), &ramp),
        (at(0, 0), &short),
        (View { width: 41, ..at(0, 0) }, &bed),
        (at(18_446_744_073_709_551_615, 0), &bed),
        (at(0, 18_446_744_073_709_551_584), &bed),
        (at(4, 8), &ramp),
    ];
    let mut kept = Kept::START;
    calls.map(|(view, planes)| line(&view, planes, &mut kept)).concat()
}
