//! The scope document's cases, through the safe interface.

use stackfilter::limits::{LONGEST_FILE, LONGEST_RECIPE, PATTERNS, PRESETS, STEP_BYTES};
use stackfilter::*;

/// The largest sample, and the set of every offset.
const TOP: u16 = u16::MAX;
const EVERY_OFFSET: u16 = PATTERNS as u16 - 1;

/// A recipe of these steps after a signal.
fn after_signal(steps: &[Step]) -> Vec<u8> {
    recipe(&[&[Step::Signal], steps].concat())
}

#[test]
fn what_follows_from_other_numbers_is_what_the_document_says() {
    assert_eq!((PATTERNS, TABLE_BYTES, LONGEST_RECIPE, LONGEST_FILE), (512, 64, 128, 33_032));
}

#[test]
fn recipes_compile_to_their_forms() {
    let cases: [(&[Step], &[u16]); 14] = [
        (&[], &[16]),
        (&[Step::Median(56)], &[24, 40, 48]),
        (&[Step::Open(48)], &[24, 48]),
        (&[Step::Close(48)], &[16, 40]),
        (&[Step::Dilate(48)], &[8, 16]),
        (&[Step::Rank(1, 48)], &[16, 32]),
        (&[Step::Open(56)], &[28, 56, 112]),
        (&[Step::Close(48), Step::Signal, Step::Smaller], &[16]),
        (&[Step::Erode(257)], &[257]),
        (&[Step::Open(496)], &[31, 62, 124, 248, 496]),
        (&[Step::Close(176)], &[16, 70, 76, 98, 104, 134, 140, 162, 168]),
        (&[Step::Open(48), Step::Close(48)], &[24, 48, 108]),
        (&[Step::Erode(256), Step::Dilate(256)], &[16]),
        (&[Step::Erode(256), Step::Open(256)], &[256]),
    ];
    for (steps, terms) in cases {
        assert_eq!(compile(&after_signal(steps)).as_deref(), Ok(terms), "{steps:?}");
    }
    assert_eq!(
        compile(&after_signal(&[Step::Rank(5, EVERY_OFFSET)])).map(|terms| terms.len()),
        Ok(MOST_TERMS)
    );
}

#[test]
fn faulty_recipes_are_refused() {
    let cases: [(&[Step], Refusal); 8] = [
        (&[Step::Open(504)], Refusal::Reach { step: 1 }),
        (&[Step::Erode(1), Step::Erode(1)], Refusal::Reach { step: 2 }),
        (&[Step::Erode(256), Step::Open(48)], Refusal::Reach { step: 2 }),
        (&[Step::Erode(0)], Refusal::StepField { step: 1 }),
        (&[Step::Median(48)], Refusal::StepField { step: 1 }),
        (&[Step::Signal], Refusal::SignalsHeld { step: 2, held: Held::NotOne }),
        (&[Step::Larger], Refusal::SignalsHeld { step: 1, held: Held::TooFew }),
        (&[Step::Signal; 8], Refusal::SignalsHeld { step: 8, held: Held::Ninth }),
    ];
    for (steps, refusal) in cases {
        assert_eq!(compile(&after_signal(steps)), Err(refusal), "{steps:?}");
        assert_eq!(run_recipe(&after_signal(steps), &[7]), Err(refusal), "{steps:?}");
    }
    assert_eq!(compile(&[]), Err(Refusal::RecipeLength { bytes: 0 }));
    let bytes = LONGEST_RECIPE + STEP_BYTES;
    assert_eq!(compile(&vec![0; bytes]), Err(Refusal::RecipeLength { bytes }));
    assert_eq!(compile(&[0, 0, 0, 0, 9, 1, 1, 1]), Err(Refusal::StepCode { step: 1 }));
    let erode_first = recipe(&[Step::Erode(48)]);
    assert_eq!(compile(&erode_first), Err(Refusal::SignalsHeld { step: 0, held: Held::TooFew }));
}

#[test]
fn recipes_run_on_the_endless_signal() {
    let cases: [(&[Step], &[u16], &[u16]); 3] = [
        (&[Step::Erode(56), Step::Dilate(56)], &[5, 0, 0], &[5, 0, 0]),
        (&[Step::Erode(1)], &[7], &[7]),
        (&[Step::Close(176)], &[1, 1, 0, 0, 1, 0], &[1, 1, 1, 0, 1, 0]),
    ];
    for (steps, scan, cleaned) in cases {
        let steps = after_signal(steps);
        assert_eq!(run_recipe(&steps, scan).as_deref(), Ok(cleaned));
        assert_eq!(compile(&steps).and_then(|terms| clean(&terms, scan)).as_deref(), Ok(cleaned));
    }
}

#[test]
fn constant_forms_give_constants() {
    assert_eq!(clean(&[], &[3, 9]), Ok(vec![0, 0]));
    assert_eq!(clean(&[0], &[3, 9]), Ok(vec![TOP, TOP]));
    assert_eq!(residue(&[0], &[0, TOP]), Ok(vec![-(TOP as i32), 0]));
    assert_eq!(residue(&[], &[0, TOP]), Ok(vec![0, TOP as i32]));
}

#[test]
fn faulty_forms_are_refused_by_every_call_that_takes_one() {
    for terms in [[24, 16], [16, 24], [16, 16], [16, PATTERNS as u16]] {
        let refusal = Refusal::BadTerm { index: 1 };
        assert_eq!(clean(&terms, &[7]), Err(refusal));
        assert_eq!(residue(&terms, &[7]), Err(refusal));
        assert_eq!(root(&terms, &[7]), Err(refusal));
        assert_eq!(form_to_table(&terms), Err(refusal));
        assert_eq!(write(&terms, &[7]), Err(refusal));
        assert_eq!(check(&terms), Err(refusal));
    }
    assert_eq!(check(&[]), Ok(0));
}

#[test]
fn scans_have_one_to_the_most_samples() {
    for samples in [0, MOST_SAMPLES + 1] {
        let scan = vec![7; samples];
        let refusal = Refusal::ScanLength { samples };
        assert_eq!(clean(&[16], &scan), Err(refusal));
        assert_eq!(run_recipe(&after_signal(&[]), &scan), Err(refusal));
        assert_eq!(write(&[16], &scan), Err(refusal));
    }
    let longest = vec![7; MOST_SAMPLES];
    assert_eq!(clean(&[16], &longest).as_ref(), Ok(&longest));
    assert_eq!(root(&[16], &longest), Ok(None));
}

#[test]
fn sets_are_made_of_offsets() {
    assert_eq!(offsets(&[]), 0);
    assert_eq!(offsets(&[-1, 0, 1]), 56);
    assert_eq!(offsets(&[1, 0, -1, 0]), 56);
    assert_eq!(offsets(&[-4, -3, -2, -1, 0, 1, 2, 3, 4]), EVERY_OFFSET);
    for beyond in [-5, 5, i32::MIN, i32::MAX] {
        let set = offsets(&[0, beyond]);
        assert_eq!(compile(&after_signal(&[Step::Erode(set)])), Err(Refusal::StepField { step: 1 }));
        assert_eq!(check(&[set]), Err(Refusal::BadTerm { index: 0 }));
    }
}

#[test]
fn lent_slices_keep_what_no_answer_fills() {
    let mut out = [1, 2, 3];
    assert_eq!(clean_into(&[16], &[7, 8], &mut out), Err(Refusal::OutputLength { needed: 2 }));
    assert_eq!(
        run_recipe_into(&after_signal(&[]), &[7, 8], &mut out),
        Err(Refusal::OutputLength { needed: 2 })
    );
    assert_eq!(preset_into(10, &mut out[..2]), Err(Refusal::TermsLent { needed: 3 }));
    let bytes = TABLE_BYTES - 1;
    assert_eq!(table_to_form_into(&vec![255; bytes], &mut out), Err(Refusal::TableLength { bytes }));
    assert_eq!(out, [1, 2, 3]);
    assert_eq!(table_to_form_into(&[255; TABLE_BYTES], &mut out), Ok(1));
    assert_eq!(out, [0, 2, 3]);
    assert_eq!(preset_into(0, &mut []), Ok(0));

    let bytes = TABLE_BYTES + 1;
    let mut table = vec![9; bytes];
    assert_eq!(form_to_table_into(&[16], &mut table), Err(Refusal::TableLength { bytes }));
    assert_eq!(table, vec![9; bytes]);
    assert_eq!(form_to_table_into(&[24, 40, 48], &mut table[..TABLE_BYTES]), Ok(3));

    let mut residues = [5];
    assert_eq!(residue_into(&[16], &[7, 8], &mut residues), Err(Refusal::OutputLength { needed: 2 }));
    assert_eq!(residues, [5]);
}

#[test]
fn files_are_written_read_and_counted() {
    let file = [
        0x0A, 0, 0x0A, 0, 0x5A, 0, 0x0A, 0, 0x0A, 0, 0x18, 0, 0x28, 0, 0x30, 0, 0x1C, 0, 0, 0, 0x12, 0, 0, 0,
        3, 0, 0x53, 0x46,
    ];
    let scan = [10, 10, 90, 10, 10];
    let terms = [24, 40, 48];
    assert_eq!(write(&terms, &scan).as_deref(), Ok(&file[..]));
    assert_eq!(read(&file), Ok(ScanFile { samples: scan.to_vec(), terms: terms.to_vec() }));
    assert_eq!(count(&file), Ok(Counts { samples: 5, changed: 1, spikes: 1, above: 80, below: 0 }));
    assert_eq!(line(&file), "5 1 1 80 0\n");
    assert_eq!(count(&[]), Err(Refusal::FileLength { bytes: 0 }));
    assert_eq!(line(&[]), "refused 15 0\n");

    // A spike up beside a spike down is two.
    let two = write(&terms, &[10, 10, 90, 0, 10, 10]).unwrap();
    assert_eq!(count(&two), Ok(Counts { samples: 6, changed: 2, spikes: 2, above: 80, below: 10 }));
    assert_eq!(line(&two), "6 2 2 80 10\n");

    for lent in [0, LINE_BYTES - 1, LINE_BYTES + 1] {
        let mut out = vec![7; lent];
        assert_eq!(line_into(&file, &mut out), Err(Refusal::OutputLength { needed: LINE_BYTES }));
        assert_eq!(out, vec![7; lent]);
    }

    let (mut samples, mut read_terms) = ([1; 6], [2; 4]);
    assert_eq!(
        read_into(&file, &mut samples[..4], &mut read_terms[..2]),
        Err(Refusal::TermsLent { needed: 3 })
    );
    assert_eq!(
        read_into(&file, &mut samples[..4], &mut read_terms),
        Err(Refusal::OutputLength { needed: 5 })
    );
    assert_eq!((samples, read_terms), ([1; 6], [2; 4]));
    assert_eq!(read_into(&file, &mut samples, &mut read_terms), Ok((5, 3)));
    assert_eq!((samples, read_terms), ([10, 10, 90, 10, 10, 1], [24, 40, 48, 2]));

    let mut short = [3; 27];
    assert_eq!(write_into(&terms, &scan, &mut short), Err(Refusal::OutputLength { needed: 28 }));
    assert_eq!(short, [3; 27]);
}

#[test]
fn damaged_files_are_refused_by_the_field_at_fault() {
    let sound = write(&[24, 40, 48], &[10, 10, 90, 10, 10]).unwrap();
    // Where the trailer's fields begin.
    let [sample_distance, term_distance, terms, mark] = [16, 20, 24, 26];
    let bad_samples = Refusal::SampleDistance { byte: sample_distance };
    let bad_terms = Refusal::TermDistance { byte: term_distance };
    let bad_mark = Refusal::Mark { byte: mark };
    // Bytes of the file, each with what it becomes.
    let cases: [(&[(usize, u8)], Refusal); 13] = [
        (&[(mark, 0x54)], bad_mark),
        (&[(mark + 1, 0x52)], bad_mark),
        (&[(term_distance, 20)], bad_terms),
        (&[(term_distance + 3, 1)], bad_terms),
        (&[(terms, 4)], bad_terms),
        (&[(terms + 1, 0x80)], bad_terms),
        (&[(sample_distance, 26)], bad_samples),
        (&[(sample_distance, 18)], bad_samples),
        (&[(sample_distance + 3, 255)], bad_samples),
        // Nine terms fit their distance, which is beyond the file's start.
        (&[(term_distance, 30), (terms, 9)], bad_samples),
        // Of several faults the first tested is told.
        (&[(sample_distance, 0), (mark, 0)], bad_mark),
        (&[(sample_distance, 0), (terms, 0)], bad_terms),
        (&[(term_distance, 0), (terms, 0), (mark, 0)], bad_mark),
    ];
    for (edits, refusal) in cases {
        let mut file = sound.clone();
        edits.iter().for_each(|(byte, value)| file[*byte] = *value);
        assert_eq!(read(&file), Err(refusal), "{edits:?}");
        assert_eq!(count(&file), Err(refusal), "{edits:?}");
        assert_eq!(line(&file), format!("refused {} {}\n", refusal.number(), refusal.place()));
    }

    // An odd number of bytes before the terms, and else nothing wrong.
    let odd = [7, 16, 0, 15, 0, 0, 0, 14, 0, 0, 0, 1, 0, 0x53, 0x46];
    assert_eq!(read(&odd), Err(Refusal::SampleDistance { byte: 3 }));

    let longest = write(&preset(10).unwrap(), &[7; MOST_SAMPLES]).unwrap();
    for bytes in [0, 1, TRAILER_BYTES - 1, LONGEST_FILE + 1, 1 << 20] {
        let mut file = longest.repeat(bytes / longest.len() + 1);
        file.drain(..file.len() - bytes);
        assert_eq!(read(&file), Err(Refusal::FileLength { bytes }));
        assert_eq!(line(&file), format!("refused 15 {bytes}\n"));
    }
    assert_eq!(read(&longest[longest.len() - TRAILER_BYTES..]), Err(Refusal::SampleDistance { byte: 0 }));
}

#[test]
fn presets_are_the_filters_of_three_samples() {
    for number in 0..PRESETS as u64 {
        let terms = preset(number).unwrap();
        assert_eq!(table_to_form(&form_to_table(&terms).unwrap()), Ok(terms));
    }
    assert_eq!(preset(12), Ok(vec![16, 40]));
    assert_eq!(preset(1 << 32), Err(Refusal::PresetNumber { number: 1 << 32 }));
}
