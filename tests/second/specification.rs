//! The frames that document 004 prints, with `^@` for octet 0.

/// The whole ones, each followed by the line end that is printed after it.
pub const FRAMES: &str = "\
MESSAGE
foo:World
foo:Hello

^@
CONNECT
accept-version:1.2
host:stomp.github.org

^@
CONNECTED
version:1.2

^@
CONNECT
accept-version:1.0,1.1,2.0
host:stomp.github.org

^@
CONNECTED
version:1.1

^@
ERROR
version:1.2,2.1
content-type:text/plain

Supported protocol versions are 1.2 2.1^@
SEND
destination:/queue/a
content-type:text/plain

hello queue a
^@
SUBSCRIBE
id:0
destination:/queue/foo
ack:client

^@
UNSUBSCRIBE
id:0

^@
ACK
id:12345
transaction:tx1

^@
BEGIN
transaction:tx1

^@
COMMIT
transaction:tx1

^@
ABORT
transaction:tx1

^@
MESSAGE
subscription:0
message-id:007
destination:/queue/a
content-type:text/plain

hello queue a^@
RECEIPT
receipt-id:message-12345

^@
";

/// The picture of a frame: COMMAND is no command.
pub const PICTURE: &str = "\
COMMAND
header1:value1
header2:value2

Body^@";

/// The pair of opening lines under the heart-beat header: no frames, and the line between them holds
/// three spaces.
pub const HEART_BEATS: &str = "\
CONNECT
heart-beat:<cx>,<cy>
\x20\x20\x20
CONNECTED:
heart-beat:<sx>,<sy>
";

/// Printed without the empty line (and indented).
pub const DISCONNECT: &str = "\
DISCONNECT
receipt:77
^@";

/// Printed without the empty line (and indented).
pub const RECEIPT: &str = "\
RECEIPT
receipt-id:77
^@";

/// Printed with 170 octets of body, and a content-length of 171.
pub const ERROR: &str = "\
ERROR
receipt-id:message-12345
content-type:text/plain
content-length:171
message: malformed frame received

The message:
-----
MESSAGE
destined:/queue/a
receipt:message-12345

Hello queue a!
-----
Did not contain a destination header, which is REQUIRED
for message propagation.
^@";

/// A printed text as octets.
pub fn octets(printed: &str) -> Vec<u8> {
    printed.replace("^@", "\0").into_bytes()
}

/// DISCONNECT and RECEIPT with their empty line, ERROR with the length that it has, one after another.
pub fn mended() -> Vec<u8> {
    let pair = [DISCONNECT, RECEIPT].map(|printed| printed.replace("^@", "\n^@\n"));
    let error = ERROR.replace("content-length:171", "content-length:170");
    octets(&[&pair[0][..], &pair[1], &error, "\n"].concat())
}
