//! Items made from their fields.

/// The fields of an item.
#[derive(Clone)]
pub struct Message {
    pub mark: u8,
    pub author: u8,
    pub previous: [u8; 32],
    pub index: u32,
    pub payload: Vec<u8>,
    pub dependencies: Vec<[u8; 32]>,
    pub signature: u16,
}

impl Message {
    /// A first message, with nothing in it but its author and what its signature starts with.
    pub fn first(author: u8, signature: u16) -> Message {
        Message {
            mark: 1,
            author,
            previous: [0; 32],
            index: 1,
            payload: Vec::new(),
            dependencies: Vec::new(),
            signature,
        }
    }

    /// The bytes of the item.
    pub fn bytes(&self) -> Vec<u8> {
        let mut body = vec![self.mark];
        body.extend([self.author; 32]);
        body.extend(self.previous);
        body.extend(self.index.to_le_bytes());
        body.extend((self.payload.len() as u32).to_le_bytes());
        body.extend(&self.payload);
        body.extend((self.dependencies.len() as u16).to_le_bytes());
        body.extend(self.dependencies.concat());
        body.extend(self.signature.to_le_bytes());
        body.extend([0; 62]);
        let mut item = (body.len() as u32 + 2).to_le_bytes().to_vec();
        item.extend([1, 0]);
        item.extend(body);
        item
    }
}
