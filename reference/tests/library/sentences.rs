//! The sentence for each refusal's number, and for numbers that are none.

use crate::compared::{write, Written};
use crate::library::Library;
use crate::rounds::{directed, Telling};
use reference::Refusal;

#[test]
fn sentences_of_refusals() {
    const TELLING: Telling = &[("sentence", 20, &["0", "14"])];
    directed("sentences_of_refusals", TELLING, || {
        let library = Library::from_environment();
        for refusal in (0..40).chain([256 + 12, u32::MAX - 1, u32::MAX]) {
            let sentence = Written::Sentence { refusal };
            let (answer, text, size) = write(&library, sentence, &[b'#'; 130], &[77, 77]);
            let exact = size[0] as usize;
            assert_eq!((answer, exact > 0), (0, (1..=Refusal::Elsewhere as u32).contains(&refusal)), "{refusal}");
            assert!(text[..exact].iter().all(|byte| (b' '..=b'~').contains(byte)), "{refusal} is plain");
            assert_eq!(write(&library, sentence, &vec![b'#'; exact], &[77]).0, 0);
            assert_eq!(write(&library, sentence, &vec![b'#'; exact], &[]).0, 14);
            if exact > 0 {
                assert_eq!(write(&library, sentence, &vec![b'#'; exact - 1], &[77]).0, 14);
            }
        }
    });
}
