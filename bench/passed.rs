// passed FUNCTION < RECORDS: reads one statement's records and hands them to a transcription of the writer or of the check of labels, in which it is counted what they
// look at beside visiting each record: `skip` counts the records that it passes over, in the decision for 65 (0) and in the writing pass (1); the check counts the
// entries that it looks at, and the records behind a break or continue. Prints the number of records, three counts and the answer.
//   write   what is passed over in the decision with an output of no words and with one of a word for each record, and what in the writing pass; the answer
//           where there are no words
//   labels  what is passed over in the decision, the entries, and the records behind
use grammar::Written;
use labels::behind::BEHIND;
use labels::entries::COMPARED;
use labels::FlatLabels;
use std::io::Read;
use tree::{PASS, PASSED};

fn words() -> Vec<u64> {
    let mut bytes = Vec::new();
    std::io::stdin().read_to_end(&mut bytes).unwrap();
    bytes.chunks_exact(8).map(|c| u64::from_le_bytes(c.try_into().unwrap())).collect()
}

fn written(answer: Written) -> u64 {
    match answer {
        Written::Tokens(n) => n as u64,
        Written::Stopped(n) => n,
        Written::Refused(n) => n,
    }
}

// What is passed over in both passes of the writer, and the answer, with an output of so many words.
fn passed(records: &[u64], words: usize) -> ([u64; 2], u64) {
    unsafe {
        PASS = 0;
        PASSED = [0; 2];
    }
    let answer = written(writer::write_stmt(records, &mut vec![u64::MAX; words]));
    (unsafe { PASSED }, answer)
}

fn main() {
    let records = words();
    let n = records.len() / 2;
    if std::env::args().nth(1).as_deref() == Some("labels") {
        let answer = FlatLabels::from(labels::check_labels(&records)).number;
        let (decision, entries, behind) = unsafe { (PASSED[0], COMPARED, BEHIND) };
        println!("{n} {decision} {entries} {behind} {answer}");
    } else {
        let (lent, _) = passed(&records, n);
        let (own, answer) = passed(&records, 0);
        println!("{} {} {} {} {}", n, own[0], lent[0], own[1], answer);
    }
}
