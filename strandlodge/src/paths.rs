//! Paths as arguments, and their components.

use std::ops::Range;

/// A path, as text or as bytes. Its components have the same kind: a `str` of a `str`, and a `[u8]` of a `[u8]`.
pub trait PathText {
    /// The type of a component.
    type Component: ?Sized;

    /// The path's bytes.
    fn bytes(&self) -> &[u8];

    /// A part of the path, if the range is one.
    fn part(&self, range: Range<usize>) -> Option<&Self::Component>;
}

impl PathText for str {
    type Component = str;

    fn bytes(&self) -> &[u8] {
        self.as_bytes()
    }

    fn part(&self, range: Range<usize>) -> Option<&str> {
        self.get(range)
    }
}

impl PathText for [u8] {
    type Component = [u8];

    fn bytes(&self) -> &[u8] {
        self
    }

    fn part(&self, range: Range<usize>) -> Option<&[u8]> {
        self.get(range)
    }
}

/// Types that hold a path of one of the two kinds.
macro_rules! holding {
    ($([$($of:tt)*] $name:ty, $kind:ty;)*) => {$(
        impl<$($of)*> PathText for $name {
            type Component = <$kind as PathText>::Component;

            fn bytes(&self) -> &[u8] {
                <$kind as PathText>::bytes(self)
            }

            fn part(&self, range: Range<usize>) -> Option<&Self::Component> {
                <$kind as PathText>::part(self, range)
            }
        }
    )*};
}

holding! {
    [] String, str;
    [] Vec<u8>, [u8];
    [const N: usize] [u8; N], [u8];
    [T: PathText + ?Sized] &T, T;
}

/// The component that a call returned as a part of the path's bytes. It is between slashes, so it is text if the path
/// is.
pub(crate) fn component<'p, P: PathText + ?Sized>(path: &'p P, found: &[u8]) -> Option<&'p P::Component> {
    let at = found.as_ptr().addr().checked_sub(path.bytes().as_ptr().addr())?;
    path.part(at..at.checked_add(found.len())?)
}

#[cfg(test)]
mod tests {
    use super::*;

    #[test]
    fn a_component_is_of_the_path_s_kind() {
        let text = "SHÖW/10.1a/日";
        let of = |range: Range<usize>| component(text, &text.as_bytes()[range]);
        assert_eq!((of(0..5), of(6..11), of(12..15)), (Some("SHÖW"), Some("10.1a"), Some("日")));
        // What cuts a character, and what is of another path.
        assert_eq!((of(0..3), component(text, &[0; 64])), (None, None));
        let bytes = *b"SHOW/\xff";
        assert_eq!(component(&bytes, &bytes[5..]), Some(&b"\xff"[..]));
        assert_eq!((component(&text.to_string(), b""), component(&&bytes, b"")), (None, None));
    }
}
