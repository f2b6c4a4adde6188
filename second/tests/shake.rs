//! The published SHAKE256 vectors, in one piece and in many.

use second::shake::{Absorb, shake256};

fn hex(text: &str) -> Vec<u8> {
    let digits: Vec<u8> = text.chars().map(|c| c.to_digit(16).expect("a hexadecimal digit") as u8).collect();
    digits.chunks_exact(2).map(|pair| pair[0] << 4 | pair[1]).collect()
}

/// Pairs of message and output.
fn vectors() -> Vec<(Vec<u8>, Vec<u8>)> {
    let field = |name: &str| -> Vec<Vec<u8>> {
        let lines = include_str!("../vectors.txt").lines();
        lines.filter_map(|line| line.strip_prefix(name)).map(|value| hex(value.trim())).collect()
    };
    let (messages, outputs) = (field("message ="), field("output ="));
    assert_eq!(messages.len(), outputs.len());
    messages.into_iter().zip(outputs).collect()
}

#[test]
fn published_vectors() {
    assert_eq!(vectors().len(), 6);
    for (message, output) in vectors() {
        let mut computed = vec![0; output.len()];
        shake256(&[&message], &mut computed);
        assert_eq!(computed, output);
    }
}

#[test]
fn pieces_count_as_joined() {
    for (message, output) in vectors() {
        for piece in [1, 7, 64, 135, 136, 137, 200] {
            let mut sponge = Absorb::new();
            message.chunks(piece).for_each(|part| sponge.absorb(part));
            let mut giving = sponge.finish();
            let mut computed = vec![0; output.len()];
            computed.chunks_mut(piece).for_each(|part| giving.squeeze(part));
            assert_eq!(computed, output, "pieces of {piece}");
        }
    }
}
