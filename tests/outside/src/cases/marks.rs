//! Cases with marks on transitions: judged in both answers, each line in ways it can be wrong, the longest files, the most tuples.

use super::*;
use conversion::with_marks;
use sheet::{PLAN_BYTES, SHEET_BYTES};

/// A sheet with these marked transitions among its transitions.
fn marked_of(n: usize, k: usize, initial: &[usize], edges: &[(usize, usize, usize)], marked: &[(usize, usize, usize)]) -> Sheet {
    Sheet { marked: marked.iter().copied().collect(), ..with_marks(&sheet_of(n, k, initial, &[], edges)) }
}

impl Cases {
    pub fn marks(&mut self, inputs: &std::path::Path) {
        self.judged_marks();
        self.lines_of_marks();
        self.letters_and_walks_of_marks();
        self.limits_of_marks(inputs);
        self.random_marks();
        self.sizes_of_both();
    }

    fn judged_marks(&mut self) {
        // One state: the job a counts, and b does not.
        let counts = marked_of(1, 2, &[0], &[(0, 0, 0), (0, 1, 0)], &[(0, 0, 0)]);
        for (lead, cycle) in [(&[][..], &[0][..]), (&[], &[1]), (&[1], &[0, 1]), (&[0, 0], &[1])] {
            self.judged(ROOM, &counts, lead, cycle);
        }
        for room in [0, 1, 2] {
            self.judged(room, &counts, &[], &[0]);
        }
        let b = with_marks(&sheet_b());
        for room in [3, 4] {
            self.judged(room, &b, &[1], &[0]);
        }
        self.judged(ROOM, &b, &[], &[0, 1]);
        // The mark is on the way into state 1, and not on its loop; then on the loop alone.
        let edges = [(0, 0, 1), (1, 0, 1)];
        for mark in edges {
            self.judged(ROOM, &marked_of(2, 1, &[0], &edges, &[mark]), &[], &[0]);
        }
        // One of four transitions is marked, so no set of must-recur states says the same.
        let four = [(0, 0, 0), (0, 1, 1), (1, 0, 1), (1, 1, 0)];
        for (mark, cycle) in [((0, 1, 1), &[0, 1][..]), ((0, 0, 0), &[1]), ((1, 0, 1), &[0]), ((1, 0, 1), &[1, 0, 1])] {
            self.judged(ROOM, &marked_of(2, 2, &[0], &four, &[mark]), &[], cycle);
        }
        // No state is initial, and nothing goes on.
        self.judged(ROOM, &marked_of(1, 1, &[], &[(0, 0, 0)], &[(0, 0, 0)]), &[], &[0]);
        self.judged(ROOM, &marked_of(1, 1, &[0], &[], &[]), &[0], &[0]);
    }

    fn lines_of_marks(&mut self) {
        let plan = b"PLAN  1  1\nb\na\nEND\n";
        let file = String::from_utf8(write_sheet(&with_marks(&sheet_b()), false)).unwrap();
        let plain = String::from_utf8(write_sheet(&sheet_b(), false)).unwrap();
        let with = |old: &str, new: &str| file.replacen(old, new, 1).into_bytes();
        for head in ["SHT-1  2  2", "SHT-3  2  2", "SHT-2 2  2", "SHT-2 17  2", "SHEET  2  2"] {
            self.text(&with("SHT-2  2  2", head), plan);
        }
        self.text(plain.replacen("SHEET", "SHT-2", 1).as_bytes(), plan);
        self.text(plain.replacen("S  0  1  0", "S  0  1", 1).as_bytes(), plan);
        self.text(plain.replacen("T  0  0  0", "T  0  0  0  0", 1).as_bytes(), plan);
        for line in ["S  0  1  0\n", "S  0  1  1\n", "S  0  2\n", "S  1  1\n", "S  0  1"] {
            self.text(&with("S  0  1\n", line), plan);
        }
        for line in [
            "T  0  1  0\n", "T  0  1  0  2\n", "T  0  1  0 01\n", "T  0  1  0   \n", "T  0  1  0  1  0\n", "T  0  1  0  0", "T  0  1  2  0\n",
            "T  0  1  0  0\nT  0  1  0  1\n", "T  0  1  0  1\nT  0  1  0  0\n", "T  0  1  0  1\n", "T  0  1  1  0\n",
        ] {
            self.text(&with("T  0  1  0  0\n", line), plan);
        }
        for (old, new) in [("N  1 b", "N  2 b"), ("N  1 b", "N  1 a"), ("END\n", "\nEND\n"), ("END\n", "")] {
            self.text(&with(old, new), plan);
        }
        for wrong in ["PLAN  0  0\nEND\n", "PLAN  0  1\nc\nEND\n", "PLAN  0  1\na\n"] {
            self.text(file.as_bytes(), wrong.as_bytes());
        }
    }

    fn letters_and_walks_of_marks(&mut self) {
        let mut s = marked_of(2, 3, &[0], &[(0, 1, 1), (0, 2, 0), (1, 2, 0)], &[(0, 1, 1)]);
        s.names = ["Stück", "Stueck", "neutral"].map(|x| x.as_bytes().to_vec()).to_vec();
        s.withdrawn = vec![(0, 1)];
        self.judged(ROOM, &s, &[], &[0, 2]);
        self.judged(ROOM, &s, &[0], &[2]);
        let file = String::from_utf8(write_sheet(&s, false)).unwrap();
        for (old, new) in [("W  0  1", "W  1  1"), ("W  0  1\n", ""), ("T  0  1  1  1", "T  0  0  1  1"), ("T  0  1  1  1", "T  0  0  1  2")] {
            self.text(file.replacen(old, new, 1).as_bytes(), "PLAN  0  2\nStu\u{308}ck\nneutral\nEND\n".as_bytes());
        }
        // Walks that come together in a state that stops, or goes on; marks do not matter.
        let two_to_one = [(0, 0, 2), (1, 0, 2)];
        self.judged(ROOM, &marked_of(3, 1, &[0, 1], &two_to_one, &[(0, 0, 2)]), &[], &[0]);
        let goes_on = [&two_to_one[..], &[(2, 0, 2)]].concat();
        self.judged(ROOM, &marked_of(3, 1, &[0, 1], &goes_on, &[(0, 0, 2)]), &[], &[0]);
        self.judged(ROOM, &with_marks(&longest_word(16)), &[], &[0]);
    }

    fn limits_of_marks(&mut self, inputs: &std::path::Path) {
        for size in [SHEET_BYTES, SHEET_BYTES + 1] {
            let mut long = b"SHT-2".to_vec();
            long.resize(size, b' ');
            self.text(&long, b"");
            let mut long = write_sheet(&with_marks(&sheet_b()), false);
            long.truncate(long.len() - 4);
            long.resize(size - 5, b'T');
            self.text(&long, b"\nEND\n");
        }
        for (name, rooms) in [("marks-1024.sheet", vec![1023, 1024]), ("longest-marks.sheet", vec![1024])] {
            let file = std::fs::read(inputs.join(name)).unwrap();
            let first = read_sheet(&file).unwrap().names[0].clone();
            for room in rooms {
                self.add(room, [&file[..], b"PLAN  0  1\n", &first, b"\nEND\n"].concat());
            }
        }
    }

    /// Sheets with some tuples and a plan by which set 0 does not die, as many that it passes as others.
    fn random_marks(&mut self) {
        let mut r = Random::new(20_261_118);
        let mut left = [11, 11];
        while left != [0, 0] {
            let plain = if r.chance(30) { families::with_dead_ends(&mut r, 12) } else { families::sheet(&mut r, 16) };
            let s = families::marked(&mut r, &plain);
            let plan = families::plan(&mut r, s.k);
            let tracker = tuples::build(&s, ROOM).filter(|t| t.tuples.len() > 10 && walks::shortest_meeting(&s).is_none());
            let Some((yes, least, _)) = tracker.map(|t| tuples::verdict(&t, &plan)) else { continue };
            if least > 1 && left[yes as usize] > 0 {
                left[yes as usize] -= 1;
                self.judged(ROOM, &s, &plan.lead, &plan.cycle);
            }
        }
    }

    /// Inputs as long as a sheet may be, and as sheet and plan may be together, and one byte longer; and SHEETs of these lengths.
    fn sizes_of_both(&mut self) {
        for size in [SHEET_BYTES, SHEET_BYTES + 1, SHEET_BYTES + PLAN_BYTES, SHEET_BYTES + PLAN_BYTES + 1] {
            self.text(&vec![b'x'; size], b"");
            let mut long = write_sheet(&sheet_b(), false);
            long.truncate(long.len() - 4);
            long.resize(size - 5, b'T');
            self.text(&long, b"\nEND\n");
        }
    }
}
