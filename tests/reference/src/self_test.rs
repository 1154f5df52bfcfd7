//! Document 01's examples, as it states them.

use crate::answer::Answer;
use crate::listing::listing;
use crate::procedure::Procedure;
use crate::record::kind;
use crate::{Shorten, cases, roles_agree};

/// The number of examples that hold. `document` is the text of document 01, whose one code
/// block is the printed procedure's listing.
pub fn run(shorten: Shorten, document: Option<&str>) -> Result<usize, String> {
    let all = cases::cases();
    let bytes = |name: &str| all.iter().find(|c| c.name == name).expect("a case").bytes.clone();
    let answer = |name: &str| shorten(&bytes(name), 65_536);
    let mut held = 0;
    let mut expect = |what: &str, holds: bool| {
        held += 1;
        if holds { Ok(()) } else { Err(format!("{what} doesn't hold")) }
    };
    if let Some(text) = document {
        let printed = text.split("```\n").nth(1).ok_or("no listing in the document")?;
        expect("P1's listing", listing(&answer("P1")) == printed)?;
    }
    expect("the roles of every kind and op", roles_agree())?;
    expect("P1", counts(&answer("P1")) == [1, 2, 0, 0])?;
    expect("P2", answer("P2").output == bytes("P2") && counts(&answer("P2")) == [0; 4])?;
    let p3 = code(&answer("P3"));
    expect("P3", p3.code.len() == 7 && answer("P3").rescued == 1 && p3.blocks[0] == (0, 3))?;
    let p4 = answer("P4");
    expect("P4", code(&p4).code.len() == 8 && p4.grown == 4 && p4.fresh == 2)?;
    expect("P5", code(&answer("P5")).code[0].kind == kind::BR && answer("P5").moved == 1)?;
    expect("P6", answer("P6").output == bytes("P6") && answer("P6").moved == 0)?;
    expect("P7", answer("P7") == Answer::refused(3, 0))?;
    expect("P8", answer("P8") == Answer::refused(1, 0))?;
    expect("480 instructions", answer("instructions-480").number == 0)?;
    expect("481 instructions", answer("instructions-481") == Answer::refused(8, 0))?;
    // Where block 0's Br leads after six hops: past six lone Brs, or to the seventh.
    let chained = |n: u32| code(&answer(&format!("chain-{n}"))).block(0)[1].p[0];
    expect("a chain of six", chained(6) == 7)?;
    expect("a chain of seven", chained(7) == 7)?;
    for name in ["budget-90-0-1", "budget-90-1-1"] {
        let n = Procedure::from_bytes(&bytes(name)).code.len() as u32;
        expect("grown equal to the bound", answer(name).grown == n / 2 + 33)?;
    }
    Ok(held)
}

fn counts(a: &Answer) -> [u32; 4] {
    [a.moved, a.grown, a.fresh, a.rescued]
}

fn code(a: &Answer) -> Procedure {
    Procedure::from_bytes(&a.output)
}
