//! Tests of rows laid end to end: what a row says of its items is what is parsed, decoded, written again and read in
//! pieces here, of the images that are encoded here.

use crate::decode::decode;
use crate::encode::Options;
use crate::encode_calls::{Call, Reply};
use crate::feed_calls::{self, dues, Due};
use crate::item::{parse, Answer};
use crate::random::Random;
use crate::rewrite::{rewrite, Stop};
use crate::rows::{make, pieces, Image, Kind, Laid};
use crate::version::BOTH;
use std::convert::Infallible;

/// A row of both versions, with and without the mark.
fn row(random: &mut Random, length: usize) -> Vec<Laid> {
    let kind = Kind {
        length,
        versions: &BOTH,
        marks: &[false, true],
        markable: false,
    };
    let image = |call: &Call| Reply::of(call).image().expect("room for the image");
    let encode = |calls: &[Call]| -> Result<Vec<Image>, Infallible> {
        Ok(calls.iter().map(image).collect())
    };
    make(random, kind, encode).expect("an encoder that does not fail")
}

#[test]
fn rows_say_what_is_read() {
    for laid in row(&mut Random::new(23), 3_000) {
        let version = laid.version;
        let parsed = parse(version, &laid.octets);
        assert_eq!(parsed, Answer::Complete(laid.item()));
        assert_eq!(decode(version, &laid.octets), laid.content());
        for counted in [false, true] {
            let written = rewrite(&laid.octets, Options { counted, version });
            let stop = match laid.again(counted) {
                Some(_) => Stop::End,
                None => Stop::Unwritten { code: 52 },
            };
            assert_eq!(written.octets, laid.again(counted).unwrap_or_default());
            assert_eq!(written.stop, stop);
        }
    }
}

#[test]
fn rows_say_what_is_fed() {
    let mut random = Random::new(24);
    for length in [0, 1, 2, 3, 5, 10, 20, 40, 80, 160] {
        let row = row(&mut random, length);
        let steps = pieces::steps(&mut random, &row);
        let calls: Vec<feed_calls::Call> = steps.iter().map(|step| step.call.clone()).collect();
        for (step, due) in steps.iter().zip(dues(&calls)) {
            let reply = match due {
                Due::Nothing => Vec::new(),
                Due::Exactly { reply, .. } => reply.octets(),
                Due::Told(told) => told.octets(),
                Due::Any(_) | Due::AnyTold(_) => panic!("no record was set"),
            };
            assert_eq!(reply, step.due);
        }
    }
}
