//! A message that follows another.

use crate::making::Message;

/// The next message of the author, after this one.
pub fn next(message: &Message, signature: u16) -> Message {
    Message {
        previous: snowknoll::item::id(&message.bytes()).unwrap(),
        index: message.index + 1,
        ..Message::first(message.author, signature)
    }
}
