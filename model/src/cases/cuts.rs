//! Every cut of plates that have every kind of field.

use super::{notation, Case, Gives, Refused, Source};

pub const GROUPS: &[super::Group] = &[("plate_cuts", cuts)];

/// A notation, its book and its listing.
type Plate = (&'static str, &'static str, &'static str);

const PLATES: [Plate; 5] = [
    (
        "0 5:10 000 0:5 00 'Volts'; 101 0:5 2:3 00 100:16 2:9 011 00 'Fuse'; 100 0:9 010 00 'OK';",
        "",
        "input,0,Volts\nif,0,lt,100,2\nprintex,Fuse\ngoto,0\nprint,OK\n",
    ),
    (
        "1 2:5 'own 1'; 'own 2'; 'own 3'; 6:10 001 31:5 10 0 1:2 1:3 10 1 2:2 00 'x'; 10 0 2:2 \
         101 31:5 5:3 01 -32769:32 4:9 000 17:5 10 1 0:2 100 1:9 010 10 1 1:2 011 10 0 0:2",
        "a\nb\nc\n",
        "phrase,own 1\nphrase,own 2\nphrase,own 3\ninputs,31,b,own 3,x,c\n\
         if,31,ge,-32769,4\ninput,17,own 1\ngoto,1\nprint,own 2\nprintex,a\n",
    ),
    (
        "0 4:10 001 1:5 10 6:3 10 10 10 10 10 00 'no'; 10 10 101 1:5 1:3 01 2147483647:32 1:9 \
         010 10 011 00 'end';",
        "yes\n",
        "inputs,1,yes,yes,yes,yes,yes,yes,no,yes,yes\nif,1,ne,2147483647,1\nprint,yes\n\
         printex,end\n",
    ),
    (
        "1 4:5 'a'; 'b'; 'c'; 'd'; 'e'; 3:10 010 10 4:3 010 10 0:3 010 00 'f';",
        "",
        "phrase,a\nphrase,b\nphrase,c\nphrase,d\nphrase,e\nprint,e\nprint,a\nprint,f\n",
    ),
    (
        "1 0:5 'a'; 3:10 000 2:5 01 <Tāwhiao>| 001 3:5 10 0 0:3 01 <São João>| 00 'no'; 011 10 1",
        "Łódź\n",
        "phrase,a\ninput,2,Tāwhiao\ninputs,3,Łódź,São João,no\nprintex,a\n",
    ),
];

/// A cut plate is 12 at the first field that does not fit.
fn cuts() -> Vec<Case> {
    let mut cases = Vec::new();
    for (notation, book, listing) in PLATES {
        let plate = notation::plate(notation);
        let bytes = plate.bytes();
        for length in 0..=bytes.len() {
            let cut_field = plate.fields.iter().find(|field| field.end > length * 8);
            let expected = match cut_field {
                Some(field) => Refused(12, field.start),
                None => Gives(listing.as_bytes().to_vec()),
            };
            cases.push(Case {
                source: Source::Plate,
                input: bytes[..length].to_vec(),
                book: book.as_bytes().to_vec(),
                expected,
            });
        }
    }
    cases
}
