//! Where the sheet ends in the input of `verdict`: at the first line that is just END, with its LF.

use crate::bench::Bench;
use crate::cases::sheet_b;
use crate::sheet::write_sheet;

pub fn run(b: &mut Bench) {
    let plan = "PLAN  1  1\nb\nxEND\nEND\n";
    let mut named = sheet_b();
    for names in [["xEND", "b"], ["END", "b"], ["b", "END"]] {
        named.names = names.iter().map(|x| x.as_bytes().to_vec()).collect();
        let file = String::from_utf8(write_sheet(&named, false)).unwrap();
        let body = file.strip_suffix("END\n").unwrap();
        for end in ["END\n", "END", "END\r\n", "END \n", " END\n", "END\nEND\n", "\nEND\n", "END\n\n", "ENDEND\n", "E\nND\n", ""] {
            for plan in [plan, "PLAN  0  1\nb\nEND\n", "PLAN  0  1\nEND\nEND\n", "PLAN  0  1\nb\nEND", "", "END\n"] {
                b.judged("limit: where the sheet ends", format!("{body}{end}{plan}").as_bytes());
            }
        }
    }
    for input in ["", "END", "END\n", "\nEND\n", "END\nPLAN  0  1\n", "xEND\n", "END\nEND\nEND\n", "\n\n\nEND\nPLAN"] {
        b.judged("limit: where the sheet ends", input.as_bytes());
    }
}
