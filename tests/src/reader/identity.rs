//! Identities of data blocks.

use super::number::parse_whole;

/// The three values of an identity.
#[derive(Clone, Copy, Debug, PartialEq, Eq)]
pub struct Identity {
    pub sequence: i64,
    pub instance: u8,
    pub memory: i64,
}

/// "`sequence.Image.instance` or with `.memory`; sequence a whole number; instance `Psd` or `Error`;
/// memory a whole number from 2, left out for 1."
pub fn parse_identity(value: &[u8]) -> Option<Identity> {
    let words: Vec<&[u8]> = value.split(|&byte| byte == b'.').collect();
    let (sequence, class, instance, memory) = match words[..] {
        [sequence, class, instance] => (sequence, class, instance, Some(1)),
        [sequence, class, instance, memory] => (sequence, class, instance, written_memory(memory)),
        _ => return None,
    };
    if class != b"Image" {
        return None;
    }
    Some(Identity { sequence: parse_whole(sequence)?, instance: instance_code(instance)?, memory: memory? })
}

fn written_memory(word: &[u8]) -> Option<i64> {
    parse_whole(word).filter(|&memory| memory >= 2)
}

fn instance_code(word: &[u8]) -> Option<u8> {
    match word {
        b"Psd" => Some(1),
        b"Error" => Some(2),
        _ => None,
    }
}

/// "in shortest form, memory left out for 1".
pub fn identity_text(identity: &Identity) -> String {
    let instance = if identity.instance == 2 { "Error" } else { "Psd" };
    let short = format!("{}.Image.{}", identity.sequence, instance);
    match identity.memory {
        1 => short,
        memory => format!("{short}.{memory}"),
    }
}

#[cfg(test)]
mod tests {
    use super::*;

    fn three(value: &[u8]) -> Option<(i64, u8, i64)> {
        parse_identity(value).map(|i| (i.sequence, i.instance, i.memory))
    }

    #[test]
    fn accepted() {
        assert_eq!(three(b"1.Image.Psd"), Some((1, 1, 1)));
        assert_eq!(three(b"-3.Image.Error"), Some((-3, 2, 1)));
        assert_eq!(three(b"+07.Image.Psd.+02"), Some((7, 1, 2)));
        assert_eq!(three(b"9223372036854775807.Image.Psd.9223372036854775807"), Some((i64::MAX, 1, i64::MAX)));
    }

    #[test]
    fn refused() {
        for value in [
            &b""[..], b"1", b"1.Image", b".Image.Psd", b"1.image.Psd", b"1.Image.psd", b"1.Image.Mask", b"1.Image.Psd.",
            b"1.Image.Psd.1", b"1.Image.Psd.0", b"1.Image.Psd.-2", b"1.Image.Psd.2.3", b"1 .Image.Psd", b"1.Image.Psd.01",
            b"9223372036854775808.Image.Psd", b"1.Image.Psd.9223372036854775808", b"1..Image.Psd",
        ] {
            assert_eq!(three(value), None, "{value:?}");
        }
    }

    #[test]
    fn text_in_shortest_form() {
        for text in ["1.Image.Psd", "-3.Image.Error", "0.Image.Psd.2"] {
            assert_eq!(identity_text(&parse_identity(text.as_bytes()).unwrap()), text);
        }
    }
}
