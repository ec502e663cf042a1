//! The sample modules of sources 000 and 001, as printed and as mended.

mod common;
use common::*;

use compare::answer::Reason;

/// Source 000, Figure 4-2, with the figure's spacing.
const VCADD: &str = "      3      ***TITLE
VCADD
      13      1      ***AENTRY
VCADD      0      2      4
      0      10      0      ***CODE
      40000      0      0      60
      40104      0      0      60
      1210      0      45004      0
      1100      0      0      60
      1105      124000      400      60
      1215      100000      45004      0
      1110      655      0      160
      0      340      0      0
      1      ***END
VCADD
";

/// Source 001, Figure 3-1.
const ADCSFT: &str = "3 ***TITLE
ADCSFT
12 1 ***PB
1 1 0
10 1 LOCAL 7 ***DBDB
1 1
10 1 COMA 1 ***DBDB
2 1
4 1 ***ENTRY
ADCSFT 0 1 1
0 17 0 ***CODE
* 3 102000 2000 0 0 3 1
0 0 0 0
0 0 0 0
3 102000 5000 0
0 0 0 0
0 0 0 0
1604 0 5000 0
1670 0 2000 33
40104 0 46004 0
41671 156000 400 0
1 100000 0 0
* 1664 0 2000 0 0 3 2
0 0 0 0 0
41564 0 3500 360
0 340 0 0
1 ***END
ADCSFT
";

#[test]
fn vcadd_as_printed() {
    // entry type 2, with the figure's spacing
    assert_eq!(load(VCADD), bad(Reason::Type, 4, 19));
}

#[test]
fn vcadd_as_mended() {
    let linker = loaded(&VCADD.replace("VCADD      0      2      4", "VCADD      0      1      4"));
    assert_eq!(symbols(&linker), [("VCADD".to_string(), Some(0))]);
    assert_eq!(linker.high(), 7);
    assert_eq!(
        image(&linker),
        hex("57 0000 4000 0000 0000 0030
             57 0001 4044 0000 0000 0030
             57 0002 0288 0000 4A04 0000
             57 0003 0240 0000 0000 0030
             57 0004 0245 A800 0100 0030
             57 0005 028D 8000 4A04 0000
             57 0006 0248 01AD 0000 0070
             57 0007 0000 00E0 0000 0000
             45 0007 0000")
    );
}

#[test]
fn adcsft_as_printed() {
    assert_eq!(load(ADCSFT), bad(Reason::Marker, 3, 6));
}

#[test]
fn adcsft_half_mended() {
    assert_eq!(load(&ADCSFT.replace("***PB", "***FPB")), bad(Reason::Fields, 24, 9));
}

fn mended_adcsft() -> String {
    ADCSFT.replace("***PB", "***FPB").replace("0 0 0 0 0\n", "0 0 100005 0\n")
}

#[test]
fn adcsft_as_mended() {
    let linker = loaded(&mended_adcsft());
    assert_eq!(symbols(&linker), [("ADCSFT".to_string(), Some(0))]);
    assert_eq!(linker.high(), 14);
    assert_eq!(image(&linker).len(), 170);
}

/// Request 4/14 allows a dot behind the first letter, and so not the manual's `.LOCAL`.
#[test]
fn adcsft_with_a_dot() {
    assert_eq!(load(&mended_adcsft().replace("LOCAL", ".LOCAL")), bad(Reason::Symbol, 5, 6));
    assert_eq!(load(&mended_adcsft().replace("LOCAL", "L.OCAL")), Ok(0));
}
