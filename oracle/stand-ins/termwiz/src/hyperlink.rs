//! Hyperlinks.

/// A hyperlink's URI, and the address at which it was read: the byte place that
/// an attribute change shows is found from it.
#[derive(Clone, Debug)]
pub struct Hyperlink {
    uri: Vec<u8>,
    address: usize,
}

impl Hyperlink {
    pub fn read_from(uri: &[u8]) -> Hyperlink {
        Hyperlink {
            uri: uri.to_vec(),
            address: uri.as_ptr() as usize,
        }
    }

    pub fn uri(&self) -> &[u8] {
        &self.uri
    }

    pub fn address(&self) -> usize {
        self.address
    }
}

impl PartialEq for Hyperlink {
    fn eq(&self, other: &Hyperlink) -> bool {
        self.uri == other.uri
    }
}

impl Eq for Hyperlink {}
