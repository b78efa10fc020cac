//! The crate and the model agree; document 01's worked cases come out as printed there.

#[cfg(not(i_overlay))]
#[test]
fn skipped() {
    println!("{}", oracle::SKIPPED);
}

#[cfg(i_overlay)]
mod with_sources {
    use oracle::cases::{self, Case};
    use oracle::compare::{kept, Counts};
    use oracle::model::{self, Limits};
    use oracle::text::Reader;
    use oracle::{cross, fill, merge, run, Kind};

    #[test]
    fn runs_agree_and_every_refusal_occurs() {
        let mut counts = Counts::default();
        cases::samples(300).iter().for_each(|case| drop(counts.run(case)));
        counts.random_runs(1, 20_000);
        counts.long_lists(2, 1);
        assert!(counts.answers.iter().all(|runs| *runs > 0), "{:?}", counts.answers);
    }

    #[test]
    fn long_lists_are_cut_to_the_limits() {
        let mut counts = Counts::default();
        let answers = cases::limits().iter().map(|case| counts.run(case).answer).collect::<Vec<u32>>();
        assert_eq!(answers, [0, 8, 0, 1, 8, 7]);
    }

    #[test]
    fn triangles_agree() {
        Counts::default().all_triangles();
    }

    #[test]
    fn pairs_agree() {
        let mut counts = Counts::default();
        counts.all_pairs(4);
        counts.random_pairs(3, 200_000);
    }

    #[test]
    fn merges_agree() {
        Counts::default().random_merges(4, 20_000);
    }

    #[test]
    fn forty_eight_are_kept() {
        assert_eq!(kept(), 48);
    }

    #[test]
    fn printed_run() {
        let room = Limits { segments: 2048, marks: 4096, scan: 2048 };
        let outcome = Counts::default().run(&Case::new(cases::squares(), 1, 2, 2, room));
        let lines = "0 12 2\n\
            0 0 0 4 -1 0 2\n0 0 4 0 1 0 1\n0 4 2 4 -1 0 2\n2 2 2 4 0 -1 27\n2 2 4 2 0 1 23\n2 4 2 6 0 -1 8\n\
            2 4 4 4 -1 0 30\n2 6 6 6 0 -1 8\n4 0 4 2 1 0 1\n4 2 4 4 1 0 29\n4 2 6 2 0 1 4\n6 2 6 6 0 1 4\n";
        assert_eq!(outcome.to_string(), lines);
    }

    #[test]
    fn worked_crossings() {
        let found = |target, other| cross(target, other, 2).map(|c| (c.kind, c.point, c.rounded));
        assert_eq!(found([0, 0, 10, 10], [0, 10, 10, 0]), Some((Kind::Pure, (5, 5), false)));
        assert_eq!(found([0, 0, 9, 9], [0, 9, 9, 0]), Some((Kind::Pure, (5, 5), true)));
        assert_eq!(found([0, 9, 9, 0], [0, 0, 9, 9]), Some((Kind::Pure, (5, 4), true)));
        assert_eq!(found([0, 0, 0, 10], [-3, 4, 6, 6]), Some((Kind::Pure, (0, 4), true)));
        assert_eq!(found([-3, 4, 6, 6], [0, 0, 0, 10]), Some((Kind::Pure, (0, 5), true)));
        assert_eq!(found([-1, 0, 1, 0], [0, -1, 1, 3]), Some((Kind::TargetEnd, (1, 0), true)));
        assert_eq!(found([0, 0, 4, 0], [2, 0, 6, 0]), Some((Kind::Collinear(6), (0, 0), false)));
        assert_eq!(found([0, 0, 4, 0], [4, 0, 6, 0]), Some((Kind::Collinear(0), (0, 0), false)));
        assert_eq!(found([0, 0, 4, 0], [0, 0, 2, 0]), Some((Kind::Collinear(8), (0, 0), false)));
    }

    #[test]
    fn worked_merges() {
        let (z, a, b) = ([-1, 0, 2, 0, 0, 0], [0, 0, 1, 0, 1, 0], [0, 0, 2, 0, 1, 0]);
        assert_eq!(merge(&[a, [0, 0, 1, 0, -1, 0], b]), Ok((vec![b], true)));
        assert_eq!(merge(&[z, a, b]), Ok((vec![z, a, b], false)));
    }

    /// docs/DIFFERENCES.md: ray sums of 32 bits wrap.
    #[test]
    fn narrow_sums_wrap() {
        let outer = cases::outline(&[(0, 0), (9, 0), (0, 9)], i32::MAX, 0);
        let inner = cases::outline(&[(1, 1), (3, 1), (1, 3)], 1, 0);
        let case = Case::new([outer, inner].concat(), 2, 0, 8, Limits { segments: 6, marks: 0, scan: 4 });
        let inner_bytes = |narrow| {
            let outcome = run(&case.input, case.settings, case.lists(), narrow);
            let inside = outcome.rows().filter(|(row, _)| row[0] > 0 && row[2] < 9);
            inside.map(|(_, byte)| byte).collect::<Vec<u8>>()
        };
        assert_eq!(inner_bytes(false), [3, 3, 3]);
        assert_eq!(inner_bytes(true), [17, 18, 17]);
    }

    /// docs/DIFFERENCES.md: carried sums are the ray sums only on settled, balanced lists.
    #[test]
    fn carried_sums_need_balance() {
        let rows = [[0, 5, 10, 5, 1, 0], [2, 0, 10, 0, 1, 0], [5, 7, 10, 7, 1, 0]];
        assert_eq!(fill(&rows, 0, 0), [17, 17, 18]);
        assert_eq!(model::fill(&rows, 0, 0), [17, 17, 17]);
    }

    #[test]
    fn text_is_read_back() {
        let mut counts = Counts::default();
        for case in cases::samples(50) {
            let outcome = counts.run(&case);
            let text = format!("{case}{outcome}");
            let mut reader = Reader::new(&text);
            assert_eq!(reader.case(), Ok(case.clone()));
            assert_eq!(reader.outcome(&case), Ok(outcome));
        }
    }
}
