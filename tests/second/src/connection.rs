//! The connection record that all calls but the reset share (#109).

use crate::{refusal, Refusal};

/// "one connection record, a byte with UTF-8 in bit 0 and V4_NC in bit 1". It is handed over by value
/// and may differ from call to call (OQ-109-10, OQ-109-13).
#[derive(Clone, Copy, Debug, PartialEq, Eq)]
pub struct Connection {
    pub flags: u8,
}

impl Connection {
    /// bit 0: header texts are UTF-8, else Latin-1
    pub const UTF8: u8 = 1;
    /// bit 1: wider pids and references
    pub const V4_NC: u8 = 2;

    /// 14: "also for a record with an unknown flag", at 0 (OQ-109-4). Each call asks "as the first check
    /// after 13", one without a 13 as the first of all (OQ-109-2).
    pub fn judge(self) -> Result<(), Refusal> {
        if self.flags & !(Connection::UTF8 | Connection::V4_NC) != 0 {
            return Err(refusal(14, 0));
        }
        Ok(())
    }

    /// Whether the texts of headers are UTF-8. Terms, lists and cache do not ask (OQ-109-7).
    pub fn is_utf8(self) -> bool {
        self.flags & Connection::UTF8 != 0
    }

    /// Whether tags 88 and 90 are wider; no other tag is (OQ-109-3, OQ-109-8).
    pub fn is_v4_nc(self) -> bool {
        self.flags & Connection::V4_NC != 0
    }
}
