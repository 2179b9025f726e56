//! The files that documents 000 and 01 print, and document 01's answers to them, with the
//! places that document 02 gives.

use crate::Survey;

/// File A of document 01.
pub const A: &[u8] = b"#FORMAT 3
#BOT ORIGIN
1 lab
#EOT ORIGIN
#BOT EDITOR
2 kim Kim
#EOT EDITOR
#BOS 7 2 0 1
Ja ITJ -- -- 500
#500 S -- -- 0
#EOS 7
";

/// A with one stretch of text replaced; the stretch must stand there just once.
pub fn changed(from: &str, to: &str) -> Vec<u8> {
    replaced(A, from, to)
}

pub fn replaced(file: &[u8], from: &str, to: &str) -> Vec<u8> {
    let from = from.as_bytes();
    let places: Vec<usize> = (0..file.len())
        .filter(|&place| file[place..].starts_with(from))
        .collect();
    assert_eq!(places.len(), 1, "{:?}", String::from_utf8_lossy(from));
    [
        &file[..places[0]],
        to.as_bytes(),
        &file[places[0] + from.len()..],
    ]
    .concat()
}

/// The cases that document 01 marks with a star. 15 and 19 point at a column.
pub fn starred_cases() -> Vec<(Vec<u8>, Survey)> {
    vec![
        (A.to_vec(), answer(0, 126, 1, 126)),
        (A[..125].to_vec(), answer(3, 119, 0, 0)),
        (A[..119].to_vec(), answer(23, 119, 0, 0)),
        (A[..74].to_vec(), answer(0, 74, 0, 0)),
        (A[..40].to_vec(), answer(13, 40, 0, 0)),
        (Vec::new(), answer(9, 0, 0, 0)),
        (changed("#FORMAT 3", "#FORMAT 4"), answer(9, 0, 0, 0)),
        (
            changed("#BOS 7 2 0 1", "#BOS 7 2 0 2"),
            answer(15, 85, 0, 0),
        ),
        (changed("-- 500", "-- 501"), answer(22, 119, 0, 0)),
        (changed("S -- -- 0", "S -- -- 500"), answer(19, 117, 0, 0)),
        (changed("#500", "#501"), answer(21, 119, 0, 0)),
        (changed("#EOS 7", "#EOS 8"), answer(20, 119, 0, 0)),
    ]
}

/// The cases that document 01 wants run.
pub fn cases_run_only() -> Vec<(Vec<u8>, Survey)> {
    vec![
        (
            changed("#BOS 7 2 0 1", "#BOS 7 -1 0 1"),
            answer(0, 127, 1, 127),
        ),
        (a_with_number("65535"), answer(0, 134, 1, 134)),
        (a_with_number("65536"), answer(8, 79, 0, 0)),
        (a_before_comment_line(4_096), answer(0, 4_223, 1, 126)),
        (a_before_comment_line(4_097), answer(5, 126, 1, 126)),
    ]
}

fn answer(refusal: u32, place: u32, sentences: u32, sound_end: u32) -> Survey {
    Survey {
        refusal,
        place,
        sentences,
        sound_end,
    }
}

fn a_with_number(number: &str) -> Vec<u8> {
    let begun = changed("#BOS 7", &format!("#BOS {number}"));
    replaced(&begun, "#EOS 7", &format!("#EOS {number}"))
}

fn a_before_comment_line(length: usize) -> Vec<u8> {
    let comment = vec![b'x'; length - 2];
    [A, b"%%", &comment, b"\n"].concat()
}

/// The example sentence of document 000, with its lost ids and tags mended.
const EXAMPLE: &str = "#FORMAT 3
#BOT ORIGIN
1\trefcorpus %% Stuttgarter Referenzkorpus, Frankfurter Rundschau
#EOT ORIGIN
#BOT EDITOR
1\tskut\t\tWojciech
#EOT EDITOR
#BOT WORDTAG
-1\tUNKNOWN\tN\tUnbekanntes Tag, Fehler
0\t--\tN\tnicht zugeordnet
1\tADJD\tY\tAttributives Adjektiv
2\tKOUS\tY\tUnterordnende Konjunktion mit Satz
3\tNN\tY\tNormales Nomen
4\tPIAT\tY\tAttribuierendes Indefinitpronomen
5\tPRELS\tY\tSubstituierendes Relativpronomen
6\tPRF\tY\tReflexives Personalpronomen
7\tVAFIN\tY\tFinites Verb, aux
8\tVVFIN\tY\tFinites Verb, voll
9\t$,\tN\tKomma
10\t$.\tN\tSatzbeendende Interpunktion
#EOT WORDTAG
#BOT MORPHTAG
-1\tUNKNOWN\t\tunknown tag, error
0\t--\t\tnot bound
1\t3.Akk.Pl\t3rd person, accusative, plural
2\t3.Sg.Pres.Ind\t3rd person singular, present, indicative
3\tMasc.Nom.Sg\tmasculinum, nominative, singular
4\tMasc.Nom.Sg.*\tmasculinum, nominative, singular, *
5\tPos\t\tpositive
6\t****\t\tunderspecified
#EOT MORPHTAG
#BOT NODETAG
-1\tUNKNOWN\tunknown tag, error
0\t--\tnot bound
1\tNP\tnoun phrase
2\tS\tsentence
#EOT NODETAG
#BOT EDGETAG
-1\tUNKNOWN\tunknown tag, error
0\t--\tnot bound
1\tCP\tcomplementizer
2\tHD\thead
3\tNK\tnoun kernel modifier
4\tOA\taccusative object
5\tPD\tpredicative
6\tRC\trelative clause
7\tSB\tsubject
#EOT EDGETAG
#BOT SECEDGETAG
%% no secondary edges used
#EOT SECEDGETAG
#BOS 12 1 847184076 1
Schade\t\tADJD\tPos\t\tPD\t503
,\t\t$,\t--\t\t--\t0
da~\t\tKOUS\t--\t\tCP\t502
kein\t\tPIAT\tMasc.Nom.Sg.*\tNK\t501
Arzt\t\tNN\tMasc.Nom.Sg.*\tNK\t501
anwesend\tADJD\tPos\t\tPD\t502
ist\t\tVAFIN\t3.Sg.Pres.Ind\tHD\t502
,\t\t$,\t--\t\t--\t0
der\t\tPRELS\tMasc.Nom.Sg\tSB\t500
sich\t\tPRF\t3.Akk.Pl\tOA\t500
auskennt\tVVFIN\t3.Sg.Pres.Ind\tHD\t500
.\t\t$.\t--\t\t--\t0
#500\t\tS\t3.Sg.Pres.Ind\tRC\t501
#501\t\tNP\tMasc.Nom.Sg.*\tSB\t502
#502\t\tS\t3.Sg.Pres.Ind\tSB\t503
#503\t\tS\t****\t\t--\t0
#EOS 12
";

/// The example in its bytes: the sharp s is byte 223.
pub fn example() -> Vec<u8> {
    EXAMPLE
        .bytes()
        .map(|byte| if byte == b'~' { 223 } else { byte })
        .collect()
}
