//! Sparse images (docs/COMPARING.md): the image's length, the number of runs, and for each run its offset, length and
//! bytes. Every other byte is 0. Numbers have 32 bits, little-endian.

/// This many zeros between two runs cost more than the head of another run.
const GAP: usize = 16;

/// Unpacks an image; `None` if it is not packed correctly.
pub fn expand(packed: &[u8]) -> Option<Vec<u8>> {
    expand_over(packed, Vec::new())
}

/// The same, with every other byte taken from another image, and 0 past its end.
pub fn expand_over(packed: &[u8], mut image: Vec<u8>) -> Option<Vec<u8>> {
    let (length, rest) = number(packed)?;
    let (runs, mut rest) = number(rest)?;
    image.resize(length, 0);
    for _ in 0..runs {
        let (offset, behind) = number(rest)?;
        let (length, behind) = number(behind)?;
        let (run, behind) = behind.split_at_checked(length)?;
        image.get_mut(offset..)?.get_mut(..length)?.copy_from_slice(run);
        rest = behind;
    }
    rest.is_empty().then_some(image)
}

fn number(bytes: &[u8]) -> Option<(usize, &[u8])> {
    let (number, rest) = bytes.split_first_chunk()?;
    Some((u32::from_le_bytes(*number) as usize, rest))
}

/// Packs an image.
pub fn pack(image: &[u8]) -> Vec<u8> {
    let runs = runs(image);
    let mut packed = Vec::new();
    packed.extend((image.len() as u32).to_le_bytes());
    packed.extend((runs.len() as u32).to_le_bytes());
    for (at, end) in runs {
        packed.extend((at as u32).to_le_bytes());
        packed.extend(((end - at) as u32).to_le_bytes());
        packed.extend(&image[at..end]);
    }
    packed
}

/// The runs of bytes that are not zero.
fn runs(image: &[u8]) -> Vec<(usize, usize)> {
    let mut found: Vec<(usize, usize)> = Vec::new();
    for (s, sector) in image.chunks(2048).enumerate() {
        // Most sectors hold nothing, which is quickly seen.
        if sector.iter().fold(0, |a, b| a | b) == 0 {
            continue;
        }
        for (i, _) in sector.iter().enumerate().filter(|(_, b)| **b != 0) {
            let at = s * 2048 + i;
            match found.last_mut() {
                Some((_, end)) if at - *end < GAP => *end = at + 1,
                _ => found.push((at, at + 1)),
            }
        }
    }
    found
}

#[cfg(test)]
mod tests {
    use super::*;

    #[test]
    fn what_is_packed_is_expanded() {
        let mut image = vec![0; 10_000];
        for at in [0, 1, 17, 2047, 2048, 4096, 4111, 9999] {
            image[at] = 1 + (at % 255) as u8;
        }
        for image in [&image[..], &[], &[0; 3000], &[7]] {
            assert_eq!(expand(&pack(image)).unwrap(), image);
        }
    }

    #[test]
    fn runs_are_laid_over_another_image() {
        let run = |length: u32| [&length.to_le_bytes()[..], &1u32.to_le_bytes(), &1u32.to_le_bytes(), &1u32.to_le_bytes(), &[9]].concat();
        assert_eq!(expand_over(&run(3), vec![1, 2, 3, 4]).unwrap(), [1, 9, 3]);
        assert_eq!(expand_over(&run(6), vec![1, 2, 3, 4]).unwrap(), [1, 9, 3, 4, 0, 0]);
    }

    #[test]
    fn what_is_not_packed_so_is_refused() {
        let packed = pack(&[7; 100]);
        (0..packed.len()).for_each(|n| assert_eq!(expand(&packed[..n]), None));
        let run =
            |offset: u32| [&100u32.to_le_bytes()[..], &1u32.to_le_bytes(), &offset.to_le_bytes(), &2u32.to_le_bytes(), &[1, 1]].concat();
        assert_eq!(expand(&run(98)).unwrap()[98..], [1, 1]);
        assert_eq!(expand(&[&run(98)[..], &[0]].concat()), None);
        assert_eq!(expand(&run(99)), None);
        assert_eq!(expand(&run(u32::MAX)), None);
    }
}
